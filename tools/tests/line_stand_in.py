"""A program that stands in for the proved one that reads a serial line: it prints a line for each record as soon as that is whole.

usage: line_stand_in.py FAULT [LISTING]

FAULT is one of those below or another word. LISTING is a file that has a line for each record; where there is none, an answer has the kind
of its record, 0, and the number of this process.
"""
import os
import sys
import time

BYTES_AT_ONCE = 300
RECORD_BYTES = 4
LONG = 60  # seconds


def answers_of(listing):
    """The lines for records of these kinds, from the first on."""
    if listing is None:
        while True:
            yield lambda kind: f"{kind:02x}00{os.getpid():012x}\n"
    for line in listing.splitlines(keepends=True)[:-1]:
        yield lambda _kind, line=line: line


def put(text):
    """Prints at once."""
    os.write(1, text.encode())


def main(fault, listing=None):
    """Reads, answers, and says how it ended."""
    lines, rest = answers_of(open(listing, encoding="ascii").read() if listing else None), b""
    while part := os.read(0, BYTES_AT_ONCE):
        rest += part
        while len(rest) >= RECORD_BYTES:
            if fault == "ends early":
                return 0
            if fault == "fails":
                os.write(2, b"standard output cannot be written\n")
                return 0
            put("answer\n" if fault == "prints a word" else next(lines)(rest[0]))
            rest = rest[RECORD_BYTES:]
    if fault == "never ends":
        time.sleep(LONG)
    put("end 4\n" if fault == "ends with 4" else f"end {3 if rest else 0}\n")
    return 1 if fault == "has a status" else 0


sys.exit(main(*sys.argv[1:]))
