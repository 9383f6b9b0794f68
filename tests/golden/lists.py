"""lists.py: the program refuses bad lists by the number of the first bad record, and reports on odd lists and on a list
of 5,000 rows.

Of a bad list nothing is written but that number, counted from 1 with the header. Odd lists have a quoted header, a byte
order mark, carriage returns or blank lines. The long list has a row for each of 4,999 instructions, which is MATCHED,
and one that is ONLY_IN_LIST.
"""
import pathlib
import tempfile
from tests import harness
from tests.harness import Case, case
from tests.inputs import files_of, instruction

ROWS = 5000
HEADER = "DbtrAgt,TxId,Amt,Sts\n"

# the rows of bad lists, and the number of the first bad record
BAD_LISTS = [(b'BANKDEFF,"T""1",10,ACCEPTED\n', 2), (b'BANKDEFF,T1,10,PENDING\nBANKDEFF,"T\n1",10,ACCEPTED\n', 3),
             (b"BANKDEFF,T1, 10,ACCEPTED\n", 2), (b"BANKDEFF,T1,10,accepted\n", 2), (b"BANKDEFF,T1,10,PENDING,\n", 2),
             (b"BANKDEFF,T1,10,ACCEPTED\nBANKDEFF,T2,10,ACCEPTED,\n", 3), (b"BANKDEFF,T1,10\n", 2),
             (b"BANKDEFF,\xff,10,ACCEPTED\n", 2)]
REPORTED = "DbtrAgt,TxId,Result,ListAmt,ListSts,Amt,Sts\n"
# whole lists, and the rows of their reports if no message is held
ODD_LISTS = [
    (b"DbtrAgt,TxId,Amt,Sts", ""), (b'"DbtrAgt",TxId,"Amt",Sts\r\n', ""), (b"\xef\xbb\xbfDbtrAgt,TxId,Amt,Sts\n", ""),
    (b"DbtrAgt,TxId,Amt,Sts\r\nBANKDEFF,T1,10,ACCEPTED\r\n\r\nBANKDEFF,T2,10,PENDING\r\n",
     "BANKDEFFXXX,T1,ONLY_IN_LIST,10.00,ACCEPTED,,UNKNOWN\nBANKDEFFXXX,T2,ONLY_IN_LIST,10.00,PENDING,,UNKNOWN\n")]


def bad_lists(folder):
    """A report on each bad list."""
    for place, (rows, record) in enumerate(BAD_LISTS):
        path = pathlib.Path(folder, f"bad{place}")
        path.write_bytes(HEADER.encode() + rows)
        words = ["report", "BANKDEFF", "2024-05-02", str(path)]
        yield Case(f"report on {rows!r}", words, b"", b"", f"fault 48 {record}\n".encode(), 2)


def odd_lists(folder):
    """A report on each odd list."""
    for (data, rows), path in zip(ODD_LISTS, files_of(folder, "odd", [data for data, _ in ODD_LISTS])):
        yield case(f"report on {data!r}", ["report", "BANKDEFF", "2024-05-02", path], b"", (REPORTED + rows).encode(),
                   b"")


def long_list(folder):
    """A report on a list of many rows. No message is on the last of them. A report has its rows by transfer, and the
    identifications go by bytes."""
    transfers = [f"T{number}" for number in range(1, ROWS + 1)]
    rows = [f"BANKDEFF,{transfer},1.00,PENDING\n" for transfer in transfers]
    reported = {transfer: f"BANKDEFFXXX,{transfer},MATCHED,1.00,PENDING,1.00,PENDING\n" for transfer in transfers}
    reported[transfers[-1]] = f"BANKDEFFXXX,{transfers[-1]},ONLY_IN_LIST,1.00,PENDING,,UNKNOWN\n"
    path = pathlib.Path(folder, "list")
    path.write_text(HEADER + "".join(rows))
    text = REPORTED + "".join(reported[transfer] for transfer in sorted(transfers))
    data = "".join(instruction(number) for number in range(1, ROWS))
    return case(f"report on {ROWS} rows", ["report", "BANKDEFF", "2024-05-02", str(path)], data.encode(), text.encode(),
                b"")


def main():
    program = harness.program()
    with tempfile.TemporaryDirectory() as folder:
        harness.end_of([harness.fits(program, one)
                        for one in [*bad_lists(folder), *odd_lists(folder), long_list(folder)]])


if __name__ == "__main__":
    main()
