"""The form of mixture sheets by Python's csv module and the rules that document 01 adds, against the library's refusal 15 and its place;
and the answer as text, read back by the csv module. The argument is a shared library with the functions of tests/testing.h."""

import csv
import ctypes
import io
import random
import re
import sys

SEED = 4180
SHEETS = 80_000
MOST_BYTES = 65_536
PARTS = re.compile(r"0|[1-9][0-9]{0,6}")


class Refusal(ctypes.Structure):
    _fields_ = [("number", ctypes.c_uint64), ("place", ctypes.c_uint64)]


class Limits(ctypes.Structure):
    _fields_ = [("refusal", Refusal), *((name, ctypes.c_uint64) for name in ("lower", "upper", "lower_mark", "upper_mark"))]


class Written(ctypes.Structure):
    _fields_ = [("refusal", Refusal), ("length", ctypes.c_uint64)]


def load(path):
    library = ctypes.CDLL(path)
    library.jlt_sheet_answer.argtypes = [ctypes.c_char_p, ctypes.c_size_t]
    library.jlt_sheet_answer.restype = Limits
    library.jlt_write_sheet_answer.argtypes = [Refusal, ctypes.c_uint64, ctypes.c_uint64, ctypes.c_char_p, ctypes.c_size_t]
    library.jlt_write_sheet_answer.restype = Written
    return library


def records(sheet):
    """The csv module's rows, each with the text that it was read from."""
    taken = []

    def lines():
        for line in io.StringIO(sheet.decode("latin-1"), newline=""):
            taken.append(line)
            yield line

    for row in csv.reader(lines()):
        yield row, "".join(taken)
        taken.clear()


def plain(text, last):
    """No quote mark, and CRLF at the end (optional for the last record) and no other CR or LF."""
    body = text[:-2] if text.endswith("\r\n") else text
    return (last or body != text) and not set(body) & set('"\r\n')


def bad_record(sheet):
    """The place of refusal 15, or None for a sheet in good form."""
    if len(sheet) > MOST_BYTES:
        return 0
    found = list(records(sheet))
    if not found:
        return 0
    for number, (row, text) in enumerate(found):
        good = row == ["formula", "parts"] if number == 0 else len(row) == 2 and PARTS.fullmatch(row[1])
        if not good or not plain(text, number == len(found) - 1):
            return number
    return None


def percent(limit):
    return f"{limit // 100}.{limit % 100:02}"


def written(library, answer):
    """The answer as text, read by the csv module."""
    out = ctypes.create_string_buffer(128)
    length = library.jlt_write_sheet_answer(answer.refusal, answer.lower, answer.upper, out, 128).length
    text = out.raw[:length].decode("ascii")
    assert text.count("\r\n") == 2 and text.endswith("\r\n")
    return list(csv.reader(io.StringIO(text, newline="")))


def wanted_rows(answer):
    refusal = answer.refusal
    limits = ["", ""] if refusal.number else [percent(answer.lower), percent(answer.upper)]
    return [["answer", "record", "lower", "upper"], [str(refusal.number), str(refusal.place), *limits]]


FORMULAS = [b"CH4", b"C2H6", b"C3H8", b"(CH3)2CO", b"C6H5Cl", b"CO2", b"", b"C\xff", b"C\x00H4", b" CH4", b"CH3OH"]
PARTS_FIELDS = [b"0", b"1", b"300000", b"1000000", b"9999999", b"10000000", b"007", b"00", b"", b"-1", b"1.5", b"12 ", b"+3", "１".encode()]
DAMAGE = [b",", b'"', b'""', b"\r", b"\n", b"\r\n", b"\n\r", b"0", b"7", b"C", b"\x00", b"\x85", b"\xe2\x80\xa8", b"\x0b", b"\x0c", b"\x1c", b" ", b";"]


def make(source):
    """A sheet of a few records, mostly in good form, then damaged up to three times."""
    lines = [b"formula,parts"]
    for _ in range(source.randrange(8)):
        parts = source.choice(PARTS_FIELDS) if source.random() < 0.1 else b"%d" % source.randrange(100_000)
        lines.append(source.choice(FORMULAS[:5] if source.random() < 0.9 else FORMULAS) + b"," + parts)
    sheet = b"\r\n".join(lines) + source.choice([b"", b"\r\n"])
    for _ in range(source.choice([0, 0, 0, 1, 1, 2, 3])):
        at = source.randrange(len(sheet) + 1)
        sheet = sheet[:at] + source.choice(DAMAGE) + sheet[at + source.randrange(3):]
    return sheet


def long_sheets():
    """At and beyond the longest input, in good form or with the last record bad."""
    for length in range(MOST_BYTES - 2, MOST_BYTES + 3):
        body = b"formula,parts" + b"\r\nCH4,1" * 8_000
        for end in (b",1", b",1\r\n", b",x"):
            yield body + b"\r\n" + b"C" * (length - len(body) - 2 - len(end)) + end


def check(library, sheet):
    place = bad_record(sheet)
    answer = library.jlt_sheet_answer(sheet, len(sheet))
    number = answer.refusal.number
    agreed = number != 15 if place is None else (number, answer.refusal.place) == (15, place)
    if not agreed or written(library, answer) != wanted_rows(answer):
        sys.exit(f"FAILED: {sheet!r}\n  csv: {'good form' if place is None else f'15 at {place}'}"
                 f"\n  library: {number} at {answer.refusal.place}, {answer.lower}, {answer.upper}, {written(library, answer)}")
    return number


def main():
    csv.field_size_limit(1 << 20)
    library = load(sys.argv[1])
    source = random.Random(SEED)
    given = {}
    for sheet in [*long_sheets(), *(make(source) for _ in range(SHEETS))]:
        number = check(library, sheet)
        given[number] = given.get(number, 0) + 1
    missing = {0, 1, 4, 8, 9, 15} - given.keys()
    if missing:
        sys.exit(f"FAILED: no sheet was refused with {missing}")
    print(f"seed {SEED}, {sum(given.values())} sheets, by refusal number {dict(sorted(given.items()))}: the csv module agrees")


main()
