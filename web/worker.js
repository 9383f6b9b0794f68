// The worker: it has the module, reads the files, keeps a site and its texts, and answers the page's questions about their rows.
// lists.js comes before it.

class Fault extends Error {
  constructor(code, place) { super(`fault ${code} ${place}`); this.code = code; this.place = place; }
}

// A file that cannot be read to its end, or has another length than when it was chosen.
class Changed extends Error {
  constructor(which) { super("changed"); this.which = which; }
}

// A list with something wrong: what it is.
class WrongList extends Error {
  constructor(faults) { super("list"); this.faults = faults.slice(0, MOST_ROWS); this.many = faults.length; }
}

// A file that is of another kind than messages or a list.
class Kind extends Error {
  constructor(kind, file) { super(kind); this.kind = kind; this.file = file; }
}

const decoded = (bytes) => new TextDecoder().decode(bytes), encoded = (text) => new TextEncoder().encode(text);
const MEMORY = 65, BAD_LIST = 48, BAD_WORD = 73, LINE_FEED = 10, LESS = 60, BLANKS = [9, 10, 13, 32];
const PIECE = 1 << 26; // bytes of a file of messages that are taken at once
const SOME = 1 << 24; // bytes of a text that are decoded at once
const PART = 1 << 20; // bytes of an answer that are copied at once
const KEPT = 10000, LONGEST = 1000; // the refused lines whose text is kept, and the bytes of each
const MOST_ROWS = 20; // the rows of a list of which something is said
const LEAST = 3; // letters of a search that looks into messages
// structures of include/niluppang.h: the bytes of a handle and of the longest result, and where the fields of results are
const HANDLE = 16, RESULT = 56, CODE = 1, PLACE = 8, LENGTH = 16, LENGTH_OF_LINES = 40;
let core; // the compiled module
let site; // the site with the messages of the files that are answered
let lines; // the files that are answered, each with how many line feeds are before it, and the text of refused lines by their number
let index; // of each message with amounts, accounts or an end-to-end identification a line: its transfer, and these
let last = {}; // what was searched for in messages last, and the transfers that have it
const texts = {}; // the pieces of bytes of each text that is kept; a piece ends at the end of a line
let tables = {}; // how many rows each table has, and how many with each word

// ---- calls of the module

// A site of its own, in an instance of the module. All memory goes back when nobody has the site any more. A place in the module's memory
// and a length are a BigInt each, and a text is both.
class Site {
  constructor() {
    this.calls = new WebAssembly.Instance(core, {}).exports;
    this.handle = this.taken(HANDLE);
    this.result = this.taken(RESULT);
    this.part = this.taken(PART);
    this.bytes(this.handle, HANDLE).fill(0);
    this.called("open", 1, 1);
  }

  // The bytes at a place. They are of use until the module's memory grows.
  bytes(at, length) { return new Uint8Array(this.calls.memory.buffer, Number(at), length); }

  // The place of new bytes.
  taken(length) {
    const at = this.calls.heap_take(BigInt(Math.max(length, 1)));
    if (at === 0n) throw new Fault(MEMORY, 0);
    return at;
  }

  given(at) { this.calls.heap_give(at); }

  put(bytes) {
    const at = this.taken(bytes.length);
    this.bytes(at, bytes.length).set(bytes);
    return [at, BigInt(bytes.length)];
  }

  // Makes a call. Returns what it came to.
  called(name, ...words) {
    this.calls["sct_raw_" + name](this.result, this.handle, ...words);
    const result = new DataView(this.calls.memory.buffer, Number(this.result), RESULT);
    if (!result.getUint8(0)) throw new Fault(result.getUint8(CODE), Number(result.getBigUint64(PLACE, true)));
    return result;
  }

  // The answer that the last call made. It is copied part by part, and ends then: the module has one copy of it, and not for long.
  answer(length) {
    const text = new Uint8Array(length);
    for (let from = 0; from < length;) {
      const copied = Number(this.called("answer_part", BigInt(from), this.part, BigInt(PART)).getBigUint64(LENGTH, true));
      text.set(this.bytes(this.part, copied), from);
      from += copied;
    }
    this.called("answer_end");
    return text;
  }

  // The answer to a question with some texts, which are given back.
  asked(name, ...its) {
    try {
      return this.answer(Number(this.called(name, ...its.flat()).getBigUint64(LENGTH, true)));
    } finally {
      for (const [at] of its) this.given(at);
    }
  }

  // Takes lines of messages. Returns the lines about those that are refused.
  take_lines(at, length) {
    return this.answer(Number(this.called("take_lines", at, BigInt(length)).getBigUint64(LENGTH_OF_LINES, true)));
  }
}

// ---- the reading of files

// How files begin that are neither messages nor a list. XML and UTF-16 are others: kind_of has them.
const BEGINNINGS = { gzip: [0x1f, 0x8b], zip: [0x50, 0x4b, 3, 4], workbook: [0xd0, 0xcf, 0x11, 0xe0], pdf: [0x25, 0x50, 0x44, 0x46], xml: [0xff, 0xfe, LESS, 0] };
const HEAD = 4096; // bytes of a file that show what it is

// What a file is that is neither messages nor a list, by its first bytes, or nothing.
function kind_of(head, which) {
  for (const [kind, beginning] of Object.entries(BEGINNINGS)) if (begins_with(head, beginning)) return kind;
  const text = begins_with(head, MARK) ? head.subarray(MARK.length) : head;
  if (which === "messages" && is_list(head)) return "list";
  if (which === "messages" && text.find((byte) => !BLANKS.includes(byte)) === LESS) return "xml";
  return which === "messages" && (begins_with(head, [0xff, 0xfe]) || begins_with(head, [0xfe, 0xff])) ? "utf16" : undefined;
}

// Stops at a file that is compressed, a workbook, XML, a list in place of messages, or messages in UTF-16.
async function check_kind(file, which) {
  const head = await file.slice(0, HEAD).arrayBuffer().catch(() => { throw new Changed(which); });
  const kind = kind_of(new Uint8Array(head), which);
  if (kind) throw new Kind(kind, file.name);
}

// The bytes of a file, some at a time. Before it, so many of all bytes were read.
async function* bytes_in(file, which, before = 0, all = file.size) {
  const reader = file.stream().getReader();
  let count = 0, shown = 0;
  for (;;) {
    const { done, value } = await reader.read().catch(() => { throw new Changed(which); });
    if (done) break;
    count += value.length;
    if (count > file.size) throw new Changed(which);
    yield value;
    if (count - shown > all / 50) { shown = count; postMessage({ read: (before + count) / all }); }
  }
  if (count !== file.size) throw new Changed(which);
  if (before + count === all) postMessage({ read: 1 });
}

// The bytes of the file of a list.
async function list_in(file) {
  await check_kind(file, "list");
  const bytes = new Uint8Array(file.size);
  let end = 0;
  for await (const some of bytes_in(file, "list")) { bytes.set(some, end); end += some.length; }
  return bytes;
}

// How many line feeds are in bytes.
function line_feeds(bytes) {
  let count = 0;
  for (let at = bytes.indexOf(LINE_FEED); at >= 0; at = bytes.indexOf(LINE_FEED, at + 1)) count += 1;
  return count;
}

// Has a site take files of messages as one input, piece by piece. A piece ends with the last line that is whole in it. Before it are as
// many line feeds as the pieces before had: blank lines are passed over and counted, so the site numbers the lines as they are in the input.
class Pieces {
  constructor(into, size) {
    this.site = into;
    this.room = Math.min(size, PIECE);
    this.at = into.taken(this.room);
    this.lines = this.end = 0; // the line feeds before the piece, and the end of what was read of it
    this.feeds = 0; // the line feeds of all that was read
    this.is_open = false; // whether what was read last is a line without an end
    this.refused = [];
    this.texts = new Map(); // the text of each of the first refused lines, by its number
  }

  // Ends the last line of the files before. Returns how many line feeds are before the next file.
  begin() {
    if (this.is_open) this.add(Uint8Array.of(LINE_FEED));
    return this.feeds;
  }

  add(some) {
    this.feeds += line_feeds(some);
    if (some.length) this.is_open = some.at(-1) !== LINE_FEED;
    for (let from = 0; from < some.length;) {
      if (this.end === this.room) this.next();
      const part = some.subarray(from, from + this.room - this.end);
      this.site.bytes(Number(this.at) + this.end, part.length).set(part);
      this.end += part.length;
      from += part.length;
    }
  }

  // Has the site take the whole lines that were read, and makes room for more of the next piece: at least as much as it has already.
  next() {
    const cut = this.site.bytes(this.at, this.end).lastIndexOf(LINE_FEED) + 1;
    if (cut > this.lines) {
      this.take(cut);
      const bytes = this.site.bytes(this.at, this.end), lines = line_feeds(bytes.subarray(0, cut));
      bytes.copyWithin(lines, cut);
      bytes.fill(LINE_FEED, this.lines, lines);
      this.end += lines - cut;
      this.lines = lines;
    }
    if (this.end > this.room / 2) this.widen();
  }

  widen() {
    const at = this.site.taken(2 * this.room);
    this.site.bytes(at, this.end).set(this.site.bytes(this.at, this.end));
    this.site.given(this.at);
    this.at = at;
    this.room *= 2;
  }

  // Has the site take the piece up to a place, and keeps what it refused.
  take(end) {
    const refused = this.site.take_lines(this.at, end), bytes = this.site.bytes(this.at, end);
    this.refused.push(refused);
    if (this.texts.size === KEPT) return;
    let number = this.lines + 1, from = this.lines;
    for (const line of lines_in([refused])) {
      for (const wanted = Number(FIELDS.refused(line)[0]); number < wanted; number += 1) from = bytes.indexOf(LINE_FEED, from) + 1;
      const feed = bytes.indexOf(LINE_FEED, from), long = Math.min(feed < 0 ? end : feed, from + LONGEST);
      this.texts.set(number, decoded(bytes.slice(from, long)));
      if (this.texts.size === KEPT) return;
    }
  }

  // Has the site take the rest. Returns the pieces of the lines about what was refused.
  done() {
    this.take(this.end);
    this.site.given(this.at);
    return this.refused;
  }
}

// ---- the rows of the texts

// The lines of a text, some megabytes at a time: a text can be longer than the longest string.
function* lines_in(pieces) {
  for (const bytes of pieces) {
    for (let from = 0; from < bytes.length;) {
      let end = Math.min(from + SOME, bytes.length);
      while (end < bytes.length && bytes[end - 1] !== LINE_FEED) end += 1;
      const lines = decoded(bytes.subarray(from, end)).split("\n");
      lines.pop();
      yield* lines;
      from = end;
    }
  }
}

// The fields of a line of a report, which is CSV.
function record_of(line) {
  const fields = [];
  for (const found of line.matchAll(/(?:"((?:[^"]|"")*)"|([^,]*))(?:,|$)/g)) {
    fields.push(found[1] === undefined ? found[2] : found[1].replaceAll('""', '"'));
    if (fields.length === 7) break;
  }
  return fields;
}

const FIELDS = {
  transfers: (line) => line.split("|").slice(1),
  findings: (line) => { const [, bank, transfer, finding, ...more] = line.split("|"); return [bank, transfer, finding, more.join(" ")]; },
  recalls: (line) => line.split("|").slice(1),
  totals: (line) => line.split("|"),
  refused: (line) => { const [, number, code, rest] = /^line (\d+): (\d+) ?(.*)$/s.exec(line); return [number, code, rest]; },
  report: record_of,
};
// the field of each table by which its rows are counted and chosen
const WORD = { transfers: 2, findings: 2, recalls: 3, refused: 1, report: 2 };
// the tables whose rows name a transfer
const NAMED = ["transfers", "findings", "recalls", "report"];
// the text of each table
const TEXT = { transfers: "status", findings: "status", recalls: "status", totals: "totals", refused: "refused", report: "report" };
// the table of a line of the status text, by its first letter
const KIND = { T: "transfers", F: "findings", R: "recalls" };

// The lines of a text, each with the table that it is a row of. The first line of a report has the names of its fields.
function* rows_in(text) {
  const lines = lines_in(texts[text]);
  if (text === "report") lines.next();
  for (const line of lines) yield [text === "status" ? KIND[line[0]] : text, line];
}

// Counts the rows of the tables of a text.
function count(text) {
  const found = {};
  for (const table of Object.keys(TEXT)) if (TEXT[table] === text) found[table] = { rows: 0, counts: {} };
  for (const [table, line] of rows_in(text)) {
    const { counts } = found[table];
    found[table].rows += 1;
    if (table in WORD) { const word = FIELDS[table](line)[WORD[table]]; counts[word] = (counts[word] ?? 0) + 1; }
  }
  Object.assign(tables, found);
  return found;
}

// How many rows of a table have one of some words.
const with_words = ({ rows, counts }, words) => words.length ? words.reduce((sum, word) => sum + (counts[word] ?? 0), 0) : rows;

// ---- searches

// What a search looks for in messages: an amount as it is written, or letters without their blanks too, as an IBAN has them.
function sought_in(search) {
  const amount = amount_of(search.trim()), [euros, cents] = amount.split(".");
  if (/^\d{1,9}\.\d{1,2}$/.test(amount)) return [`\t${euros.replace(/^0+(?=\d)/, "")}.${cents.padEnd(2, "0")}\t`];
  return [search.toLowerCase(), search.toLowerCase().replace(/\s/g, "")];
}

// What a message says of each of its transfers: amounts, accounts, names, the remittance information and the end-to-end identification, each
// between tabs.
function* entries_of(message) {
  for (const part of message.TxInf ?? [message]) {
    const found = [part.IntrBkSttlmAmt, part.OrgnlIntrBkSttlmAmt, part.RtrdIntrBkSttlmAmt, part.DbtrAcct, part.CdtrAcct, part.EndToEndId, part.OrgnlEndToEndId,
      part.Dbtr, part.Cdtr, part.Ustrd];
    const terms = [...new Set(found.filter(Boolean).map((text) => text.replace(/[\t\n]/g, " ")))];
    if (terms.length) yield `${part.DbtrAgt}|${part.TxId ?? part.OrgnlTxId}\t${terms.join("\t")}\t\n`;
  }
}

// The index of the messages. It is made at the first search.
function indexed() {
  if (index) return index;
  postMessage({ working: true });
  const pieces = [];
  let some = [];
  const end = () => { pieces.push(encoded(some.join(""))); some = []; };
  for (const line of lines_in([site.asked("archive_text")])) {
    some.push(...entries_of(JSON.parse(line)));
    if (some.length >= KEPT) end();
  }
  end();
  index = pieces;
  return index;
}

// The transfers with a message that has what is searched for.
function transfers_with(search) {
  if (last.search === search) return last.transfers;
  const sought = sought_in(search), transfers = new Set();
  for (const line of lines_in(indexed())) {
    const [transfer] = line.split("\t", 1), terms = line.slice(transfer.length).toLowerCase();
    if (sought.some((one) => terms.includes(one))) transfers.add(transfer);
  }
  last = { search, transfers };
  return transfers;
}

// Whether a row of a table has what is searched for: in its line, in a message on its transfer, or in the line that was refused.
function searched(table, search) {
  const sought = search.toLowerCase();
  const transfers = NAMED.includes(table) && search.trim().length >= LEAST ? transfers_with(search) : null;
  return (line, fields) => line.toLowerCase().includes(sought) || transfers?.has(`${fields[0]}|${fields[1]}`)
    || table === "refused" && (lines.texts.get(Number(fields[0])) ?? "").toLowerCase().includes(sought);
}

// A row of the refused lines, with its file, its line there, and its text.
function with_text([number, ...code]) {
  const { name, feeds } = lines.files.findLast((file) => file.feeds < Number(number)) ?? lines.files[0];
  return [number, ...code, name, String(number - feeds), lines.texts.get(Number(number)) ?? ""];
}

// What a clerk knows a transfer by: its day, its amount, who pays, who is paid and the end-to-end identification. They are those of its first
// instruction, or what its other messages say of them.
function known_of(bank, transfer) {
  const messages = lines_on("messages_text", bank, transfer).map((line) => JSON.parse(line));
  const parts = messages.map((message) => (message.TxInf ?? [message]).find((part) => part.DbtrAgt === bank && (part.TxId ?? part.OrgnlTxId) === transfer) ?? {});
  const order = parts.find((part) => part.TxId) ?? {}, first = (name) => parts.find((part) => part[name])?.[name] ?? "";
  return { day: order.IntrBkSttlmDt ?? first("OrgnlIntrBkSttlmDt"), amount: order.IntrBkSttlmAmt ?? first("OrgnlIntrBkSttlmAmt"), payer: order.Dbtr ?? "",
    payee: order.Cdtr ?? "", identification: order.EndToEndId ?? first("OrgnlEndToEndId") };
}

// Some rows of a table, with what a clerk knows their transfers by.
function known_rows(asked) {
  const answer = rows_of(asked);
  return { ...answer, known: NAMED.includes(asked.table) ? answer.rows.map(([bank, transfer]) => known_of(bank, transfer)) : [] };
}

// Some rows of a table: those that have the search text, of that bank, with one of those words.
function rows_of({ table, search, bank, words, from, count }) {
  const fields_of = FIELDS[table], is_sought = search ? searched(table, search) : () => true, chosen = [];
  const all = search || bank ? Infinity : with_words(tables[table], words);
  const shown = table === "refused" ? with_text : (fields) => fields;
  let matched = 0;
  for (const [of, line] of rows_in(TEXT[table])) {
    if (of !== table) continue;
    const fields = fields_of(line);
    if (!is_sought(line, fields) || bank && table !== "refused" && !fields[0].startsWith(bank)) continue;
    if (words.length && !words.includes(fields[WORD[table]])) continue;
    if (matched >= from && chosen.length < count) chosen.push(shown(fields));
    matched += 1;
    if (all !== Infinity && chosen.length === count) return { rows: chosen, matched: all };
  }
  return { rows: chosen, matched };
}

// ---- the page's questions

// The lines of a text on a transfer.
const lines_on = (text, bank, transfer) => [...lines_in([site.asked(text, site.put(encoded(bank)), site.put(encoded(transfer)))])];

// The messages on a transfer, the earliest first, and its lines of the status text.
function messages({ bank, transfer }) {
  const found = lines_on("messages_text", bank, transfer).map((line) => [JSON.parse(line), line]);
  found.sort(([a], [b]) => (a.CreDtTm < b.CreDtTm ? -1 : a.CreDtTm > b.CreDtTm ? 1 : 0));
  const status = lines_on("transfer_text", bank, transfer).map((line) => line.split("|"));
  return { rows: found.map(([m, line]) => [m.CreDtTm, m.MsgNmId, m.InstgAgt, m.MsgId, line]), status };
}

// Has a new site take files as one input. Returns the site and the pieces.
async function taken(files) {
  for (const file of files) await check_kind(file, "messages");
  const size = files.reduce((sum, file) => sum + file.size, 0), opened = new Site(), names = [];
  const pieces = new Pieces(opened, size + files.length - 1);
  let before = 0;
  for (const file of files) {
    names.push({ name: file.name, feeds: pieces.begin() });
    for await (const some of bytes_in(file, "messages", before, size)) pieces.add(some);
    before += file.size;
  }
  return { opened, pieces, names };
}

// The report on a list. One that the program refuses is read as a spreadsheet saves it.
function report_of(bank, day, bytes) {
  const asked = (list) => [site.asked("report", site.put(encoded(bank)), site.put(encoded(day)), site.put(list))];
  try {
    return { text: asked(bytes), list: bytes, read: { mark: begins_with(bytes, MARK) } };
  } catch (error) {
    if (error.code !== BAD_LIST) throw error;
    const plain = plain_list(bytes);
    if (plain.faults.length) throw new WrongList(plain.faults);
    return { text: asked(plain.bytes), list: plain.bytes, read: plain.read };
  }
}

// What is to be said of the rows of a list: the first ones, how many there are, and whether they forbid the report. If some forbid it, they
// alone are of interest.
function rows_against(list, bank, day) {
  const messages_on = (its_bank, transfer) => lines_on("messages_text", its_bank, transfer).map((line) => JSON.parse(line));
  let rows = [], many = 0, forbids = false;
  for (const fault of row_faults(list, bank, day, messages_on)) {
    if (fault.forbids && !forbids) { rows = []; many = 0; forbids = true; }
    if (fault.forbids !== forbids) continue;
    many += 1;
    if (rows.length < MOST_ROWS) rows.push(fault);
  }
  return { rows, many, forbids };
}

const ASKED = {
  async core({ bytes }) { core = await WebAssembly.compile(bytes); return {}; },
  async answers({ files }) {
    site = index = undefined;
    last = tables = {};
    for (const name of Object.keys(texts)) delete texts[name];
    const began = performance.now(), { opened, pieces, names } = await taken(files);
    postMessage({ working: true });
    texts.refused = pieces.done();
    lines = { files: names, texts: pieces.texts };
    for (const name of ["status", "totals"]) texts[name] = [opened.asked(name + "_text")];
    const milliseconds = performance.now() - began, memory = opened.calls.memory.buffer.byteLength;
    for (const name of Object.keys(texts)) count(name);
    site = opened;
    return { found: tables, milliseconds, memory };
  },
  async report({ bank, day, list }) {
    delete texts.report;
    const bytes = await list_in(list);
    postMessage({ working: true });
    const report = report_of(bank, day, bytes);
    if (!is_day(day)) throw new Fault(BAD_WORD, 2);
    const answer = { ...rows_against(report.list, bank, day), read: report.read };
    if (answer.forbids) return answer;
    texts.report = report.text;
    return { ...answer, found: count("report") };
  },
  rows: rows_of,
  known: known_rows,
  messages,
  text({ name }) { return { blob: new Blob(name === "archive" ? [site.asked("archive_text")] : texts[name]) }; },
};

// A fault as the page reads it.
function fault_of(error) {
  if (error instanceof Fault) return { code: error.code, place: error.place };
  if (error instanceof WrongList) return { code: BAD_LIST, place: 0, faults: error.faults, many: error.many };
  if (error instanceof RangeError) return { code: MEMORY, place: 0 };
  return { code: 0, place: 0, text: String(error.message), changed: error.which, kind: error.kind, file: error.file };
}

onmessage = async ({ data }) => {
  try {
    postMessage({ id: data.id, answer: await ASKED[data.ask](data) });
  } catch (error) {
    postMessage({ id: data.id, fault: fault_of(error) });
  }
};
