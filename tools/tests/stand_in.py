"""A program that stands in for a proved one: it prints how many bytes it read and their sum.

usage: stand_in.py NAME FAULT INPUT

NAME is that of the program, FAULT one of those below or another word. INPUT is 'folder' where standard
input is a folder: Python itself does not start with one, so a shell gives it another input and this word.
"""
import os
import sys

BYTES_AT_ONCE = 65536


def read_all(fault, kind):
    """The whole standard input, or None where it cannot be read."""
    if kind == "folder":
        return b"" if fault == "takes a folder for no bytes" else None
    given = b""
    try:
        while part := os.read(0, BYTES_AT_ONCE):
            given += part
    except OSError:
        return None
    return given


def text_for(name, fault, given):
    """What is printed for an input."""
    prints_nothing = (fault == "prints nothing for 4,092 bytes" and len(given) == 4092
                      or fault == "prints nothing for a room and a byte" and name == "rooms" and len(given) == 3
                      or fault == "prints nothing for 64 settings" and name == "counts" and len(given) == 1024
                      or fault == "prints nothing for 256 bytes off the line" and name == "serial" and len(given) == 256
                      or fault == "prints nothing for 4,096 closings" and name == "cuts" and given == 4096 * b"\2")
    return b"" if prints_nothing else f"{name}: {len(given)} bytes, {sum(given)}\n".encode()


def main(name, fault, kind):
    """Reads, prints, and says what goes wrong."""
    given = read_all(fault, kind)
    if given is None:
        os.write(2, b"standard input cannot be read\n")
        return
    try:
        os.write(1, text_for(name, fault, given))
    except OSError:
        os.write(2, b"standard output cannot be written\n")
        return
    if fault == "says more after every success":
        os.write(2, b"done\n")


main(*sys.argv[1:])
