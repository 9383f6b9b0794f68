"""worker.py: the page's worker reads each row of the texts, in Node.js: also a row with characters that end a line in
other places. It cuts files into pieces, which a site takes, and keeps the text of what is refused. It reads lists as
spreadsheets save them, and what is wrong with one has the sentences of list_from_csv.py. It names files of another
kind, and looks for amounts, accounts, names and identifications.

The rows and the files are made here, and a list of what it takes is in place of the site. So no module is needed.
"""
import base64
import json
import pathlib
import tempfile
from tests import harness
from tests.golden.desk_converters import CSVS, LIST, WRONG_CSVS
from tests.harness import TOP, reported

# a name of what is read, a line, and its fields
ROWS = [
    ("refused", "line 8: 31", ["8", "31", ""]),
    ("refused", "line 42: 36 DbtrAcct 2", ["42", "36", "DbtrAcct 2"]),
    ("refused", 'line 7: 37 "a\u2028b\u2029c"', ["7", "37", '"a\u2028b\u2029c"']),
    ("refused", 'line 7: 37 "a\rb\u0085c"', ["7", "37", '"a\rb\u0085c"']),
    ("transfers", "T|HANSDEHHXXX|HX-1|RETURNED|1.00", ["HANSDEHHXXX", "HX-1", "RETURNED", "1.00"]),
    ("findings", "F|HANSDEHHXXX|HX-1|Identity|A|pacs.008|M", ["HANSDEHHXXX", "HX-1", "Identity", "A pacs.008 M"]),
    ("recalls", "R|HANSDEHHXXX|HX-1|K|OPEN", ["HANSDEHHXXX", "HX-1", "K", "OPEN"]),
    ("report", 'LUTEFRPPXXX,"LU,10",MATCHED,1.00,ACCEPTED,1.00,ACCEPTED',
     ["LUTEFRPPXXX", "LU,10", "MATCHED", "1.00", "ACCEPTED", "1.00", "ACCEPTED"]),
]
# the words of the tables that the worker counts in a text of refused lines
COUNTED = 'line 1: 31\nline 2: 37 "x\u2028y"\nline 4: 31\n'
# files of messages, and the room for the first piece
FILES = [("", 0), ("a", 1), ("one\ntwo\nthree", 4), ("a line that is longer than all rooms\nb\n", 3),
         ("\n" * 50 + "x\r\n\r\n" * 9 + "y", 7), ("a\n" * 30, 16), ("\n", 1), ("x\n\n" + "z" * 99 + "\n\n\n", 8)]
STEPS = [1, 2, 5, 1000]  # bytes of a file that the browser gives at once
# files that are read as one input, the input, how many line feeds are before each file, and the text of each line with
# an x
INPUTS = [(["a\nbx", "", "c\n", "xd"], "a\nbx\nc\nxd", [0, 2, 2, 3], {"2": "bx", "4": "xd"}),
          (["\n\nx", "x\r\n\n", "\n"], "\n\nx\nx\r\n\n\n", [0, 3, 5], {"3": "x", "4": "x\r"}),
          (["x" * 3000], "x" * 3000, [0], {"1": "x" * 1000}), (["", ""], "", [0, 0], {})]
HEADER, ROW = "DbtrAgt,TxId,Amt,Sts\n", "HANSDEHH,T1,120.00,RETURNED\n"
# files of a list, the list that is read, and what is read in another way
LISTS = [
    *((data, LIST, None) for data in CSVS.values()),
    (b"DbtrAgt;TxId;Amt;Sts\r\nHANSDEHH;T1;120,00;RETURNED\r\nHANSDEHH;0012;1.250,50;ACCEPTED\r\n",
     HEADER + ROW + "HANSDEHH,0012,1250.50,ACCEPTED\n", {"semicolons": True, "commas": 2}),
    (b"\xef\xbb\xbfDbtrAgt;TxId;Amt;Sts\nHANSDEHH; T1 ;120;RETURNED;;\n", HEADER + "HANSDEHH,T1,120,RETURNED\n",
     {"mark": True, "semicolons": True}),
    ("\ufeffDbtrAgt\tTxId\tAmt\tSts\r\nHANSDEHH\tT1\t120,0\tRETURNED".encode("utf-16-le"),
     HEADER + ROW.replace("120.00", "120.0"),
     {"wide": True, "tabs": True, "commas": 1}),
    (b"sep=;\r\nDbtrAgt;TxId;Amt;Sts\nHANSDEHH;T1;120,00;RETURNED\n", HEADER + ROW,
     {"first": True, "semicolons": True, "commas": 1}),
    (b'DbtrAgt,TxId,Amt,Sts\nHANSDEHH,T1,"120,00",RETURNED\n', HEADER + ROW, {"commas": 1}),
    (b"DbtrAgt,TxId,Amt,Sts\nHANSDEHH, T1, 120.00,RETURNED,\n,,,\n", HEADER + ROW, {}),
    (b"sts;AMT;DbtrAgt;TxId\nRETURNED;120,00;HANSDEHH;T1\n", HEADER + ROW,
     {"semicolons": True, "order": True, "commas": 1}),
    (b'DbtrAgt,TxId,Amt,Sts\nHANSDEHH,T1,"1,250.00",RETURNED\n',
     HEADER + ROW.replace("120.00", "1250.00"), {"commas": 1})
]
# how files begin, whether they are messages, and what they are
KINDS = [(b"<?xml", True, "xml"), (b"\xef\xbb\xbf\r\n <Document>", True, "xml"),
         ("\ufeff<?xml".encode("utf-16-le"), True, "xml"),
         (b"\x1f\x8b\x08", True, "gzip"), (b"\xd0\xcf\x11\xe0", False, "workbook"),
         (b"%PDF-1.7", False, "pdf"), (b"<x", False, None),
         (b"DbtrAgt,TxId", True, "list"), (b"DbtrAgt,TxId", False, None), (b"sep=;\r\ndbtragt;TxId", True, "list"),
         ("\ufeffDbtrAgt\tTxId".encode("utf-16-le"), True, "list"), (b'{"DbtrAgt":"DbtrAgt,"}', True, None),
         (b"PK\x03\x04", False, "zip"), ("\ufeff{".encode("utf-16-le"), True, "utf16"),
         ("\ufeffDbtr".encode("utf-16-be"), False, None),
         (b"{}", True, None), (b"", True, None), (b"\xef\xbb\xbf{", True, None), (b"x<", True, None)]
# searches, and whether each finds the transfer of this message
FOUND = {"DbtrAgt": "HANSDEHHXXX", "TxId": "T1", "IntrBkSttlmAmt": "1250.50", "DbtrAcct": "DE89370400440532013000",
         "CdtrAcct": "BE68539007547034", "EndToEndId": "Rent May", "Dbtr": "Anna\tL\u00f8v\u00e9n", "Cdtr": "Jo Nagy",
         "Ustrd": "Invoice 12"}
SEARCHES = {"1250.5": True, "1.250,50": True, "01250,50": True, "250.50": False, "1250": True,
            "DE89 3704 0044": True, "be68": True,
            "rent may": True, "rent  may": False, "anna L\u00f8v\u00e9n": True, "jo nagy": True, "nagy": True,
            "invoice 12": True, "T1 invoice": False,
            "1250.51": False, "E1": False}
# the days of the calendar, and others
# a workbook is named by its first bytes before
WRONGS = [(text, why) for text, why in WRONG_CSVS if not text.startswith("PK")]
DAYS = {"2025-03-10": True, "2024-02-29": True, "2025-02-29": False, "2025-02-31": False,
        "2025-3-1": False, "0000-01-01": False,
        "10.03.2025": False, "": False}
PROGRAM = """
const fs = require("fs"), vm = require("vm");
const [asked, ...sources] = process.argv.slice(2).map((path, place) => {
  const text = fs.readFileSync(path, "utf8");
  return place ? text : JSON.parse(text);
});
const context = vm.createContext({ TextDecoder, TextEncoder, TypeError, postMessage: () => {} });
vm.runInContext(sources.join("\\n"), context);
context.asked = asked;
const tried = (script) => { try { return vm.runInContext(script, context); } catch (error) { return String(error); } };
const rows = asked.rows.map(([name, line], place) => tried(`FIELDS[asked.rows[${place}][0]](asked.rows[${place}][1])`));
const counts = tried(`texts.refused = [new TextEncoder().encode(asked.counted)]; count("refused").refused`);
const cut = tried(`({ texts, room }, step) => {
  const memory = new Uint8Array(1 << 16), taken = [];
  let free = 16;
  const site = {
    bytes: (at, length) => memory.subarray(Number(at), Number(at) + length),
    taken: (length) => { free += length; return BigInt(free - length); },
    given: () => {},
    take_lines: (at, length) => {
      taken.push(decoded(site.bytes(at, length)));
      const refused = taken.at(-1).split("\\\\n").map((line, place) => line.includes("x") ? "line " + (place + 1) + ": 31\\\\n" : "");
      return encoded(refused.join(""));
    },
  };
  const pieces = new Pieces(site, room), feeds = [];
  for (const text of texts) {
    feeds.push(pieces.begin());
    const bytes = encoded(text);
    for (let from = 0; from < bytes.length; from += step) pieces.add(bytes.subarray(from, from + step));
  }
  pieces.done();
  return { taken, feeds, texts: Object.fromEntries(pieces.texts) };
}`);
const pieces = asked.files.map((file) => asked.steps.map((step) => cut(file, step)));
const bytes_of = (base64) => Uint8Array.from(Buffer.from(base64, "base64"));
const plain = tried(`(bytes) => {
  const { bytes: list, read } = plain_list(bytes);
  return [decoded(list), Object.fromEntries(Object.entries(read).filter(([, value]) => value))];
}`);
const lists = asked.lists.map((list) => plain(bytes_of(list)));
const kinds = asked.kinds.map(([head, is_messages]) => tried("kind_of")(bytes_of(head), is_messages ? "messages" : "list") ?? null);
const searches = tried(`asked.searches.map((search) => {
  index = [encoded([...entries_of(asked.message)].join(""))];
  return transfers_with(search).has("HANSDEHHXXX|T1");
})`);
const said = (text, ...parts) => text.replace(/\\{(\\d)\\}/g, (_, place) => parts[place]);
const words = tried("WORDS");
const line_of = (language) => ({ name, about, hint }) => said(words[language][name], ...about)
  + (hint ? ": " + said(words[language][hint.name], ...hint.about) : "");
const wrong = asked.wrong.map((text) => {
  const { bytes, faults } = tried("(bytes) => plain_list(bytes)")(bytes_of(text));
  return [bytes, ...["en", "de", "fr"].map((language) => faults.map(line_of(language)))];
});
const days = tried("asked.days.map(is_day)");
process.stdout.write(JSON.stringify({ rows, counts, pieces, lists, kinds, searches, days, wrong }));
"""


def are_pieces(text, pieces):
    """Whether pieces are those of a file: each has as many line feeds as those before it, and then lines, whole ones
    but for the last."""
    whole = ""
    for piece in pieces:
        before = whole.count("\n")
        if piece[:before] != "\n" * before or whole and not whole.endswith("\n"):
            return False
        whole += piece[before:]
    return whole == text


def asked_of():
    """What the worker is asked in Node.js."""
    files = [{"texts": [text], "room": room} for text, room in FILES] + [{"texts": texts, "room": 4}
                                                                         for texts, *_ in INPUTS]

    def text(data):
        return base64.b64encode(data).decode()

    return {"rows": [row[:2] for row in ROWS], "counted": COUNTED, "files": files, "steps": STEPS,
            "lists": [text(data) for data, *_ in LISTS],
            "kinds": [[text(head), is_messages] for head, is_messages, _ in KINDS],
            "wrong": [text(data.encode()) for data, _ in WRONGS], "message": FOUND, "searches": list(SEARCHES),
            "days": list(DAYS)}


def answers():
    """What the worker answers. It ends the check if it answers nothing."""
    with tempfile.TemporaryDirectory() as folder:
        program, asked = pathlib.Path(folder, "read.js"), pathlib.Path(folder, "asked.json")
        program.write_text(PROGRAM)
        asked.write_text(json.dumps(asked_of()))
        done = harness.run([harness.command("node"), program, asked,
                            *(TOP / "web" / f"{name}.js" for name in ("lists", "worker", "words"))])
    return json.loads(done.text) if done.status == 0 else harness.stop(done.errors.decode())


def of_files(found):
    """What is judged of the files that are cut: one alone, and several as one input."""
    for (text, room), its in zip(FILES, found):
        for step, one in zip(STEPS, its):
            yield reported(f"pieces of {text[:20]!r} from {room} bytes, {step} at once", are_pieces(text, one["taken"]),
                           str(one))
    for (texts, text, feeds, kept), its in zip(INPUTS, found[len(FILES):]):
        for step, one in zip(STEPS, its):
            right = are_pieces(text, one["taken"]) and one["feeds"] == feeds and one["texts"] == kept
            yield reported(f"{[text[:20] for text in texts]} as one input, {step} bytes at once", right, str(one)[:500])


def main():
    found = answers()
    right = [reported(f"{name} {line!r}", its == fields, str(its))
             for (name, line, fields), its in zip(ROWS, found["rows"])]
    right.append(reported("counts of refused lines", found["counts"] == {"rows": 3, "counts": {"31": 2, "37": 1}},
                          str(found["counts"])))
    files = list(of_files(found["pieces"]))
    right += [*files, reported("all files are cut", len(files) == (len(FILES) + len(INPUTS)) * len(STEPS))]
    right += [reported(f"the list {data[:60]!r}", its[0] == text and read in (None, its[1]), str(its))
              for (data, text, read), its in zip(LISTS, found["lists"])]
    for (text, why), (data, english, *others) in zip(WRONGS, found["wrong"]):
        other = all(len(lines) == 1 and lines[0] not in ("", why) and "{" not in lines[0].replace(text, "")
                    for lines in others)
        right.append(reported(f"what is wrong with {text[:60]!r}", data is None and english == [why] and other,
                              str((english, others))))
    right += [reported(f"the kind of {head!r}", its == kind, str(its))
              for (head, _, kind), its in zip(KINDS, found["kinds"])]
    right += [reported(f"a search for {text!r}", its == is_found, str(its))
              for (text, is_found), its in zip(SEARCHES.items(), found["searches"])]
    right += [reported(f"the day {text!r}", its == is_day, str(its))
              for (text, is_day), its in zip(DAYS.items(), found["days"])]
    harness.end_of(right)


if __name__ == "__main__":
    main()
