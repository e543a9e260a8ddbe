"""A program that stands in for one that reads bytes as they come: it prints a line for each record that is whole, and at the end how
many bytes each of its reads brought.

usage: reader.py FAULT

FAULT is one of those below or another word.
"""
import os
import sys
import time

BYTES_AT_ONCE = 65536
RECORD_BYTES = 4
A_MINUTE = 60


def whole_records(fault, come):
    """How many records are to be answered when so many bytes have come."""
    if fault == "answers at the end":
        return 0
    return (come - 1 if fault == "waits for one byte more" and come else come) // RECORD_BYTES


def main(fault):
    """Reads and answers."""
    if fault == "never reads":
        time.sleep(A_MINUTE)
    brought, answered = [], 0
    while part := os.read(0, BYTES_AT_ONCE):
        brought.append(len(part))
        whole = whole_records(fault, sum(brought))
        os.write(1, b"answer\n" * (whole - answered))
        answered = whole
        if fault == "stops reading":
            return
    if fault == "says more":
        os.write(2, b"done\n")
    os.write(1, f"end {brought}\n".encode())


main(*sys.argv[1:])
