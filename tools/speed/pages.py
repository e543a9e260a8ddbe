"""Puts every function that is measured on pages of its own.

The emulator goes from one page of code to another more slowly than it goes on within one. So the time of a loop would hang on where the
linker happens to put it, and a call added to the archive would seem to slow down another. Objects are made with a section for each
function; here those sections are told to begin on a page.
"""
import struct

PAGE = 4096
CODE = 4  # the flag of a section that is executed
ELF = b"\x7fELF\x02\x01"  # for 64 bits, the low byte first
ARCHIVE = b"!<arch>\n"
MEMBER = 60  # the length of what stands before each member of an archive, its size at 48


def of_object(data):
    """An object file with each of its code sections on a page of its own."""
    data = bytearray(data)
    first, = struct.unpack_from("<Q", data, 0x28)
    length, count = struct.unpack_from("<HH", data, 0x3A)
    for at in range(first, first + length * count, length):
        flags, = struct.unpack_from("<Q", data, at + 0x08)
        if flags & CODE:
            struct.pack_into("<Q", data, at + 0x30, PAGE)
    return bytes(data)


def on_pages(data):
    """The same of an object file, or of an archive of them; anything else stays as it is."""
    if data.startswith(ELF):
        return of_object(data)
    if not data.startswith(ARCHIVE):
        return data
    made, at = bytearray(ARCHIVE), len(ARCHIVE)
    while at < len(data):
        begin = at + MEMBER
        end = begin + int(data[at + 48 : at + 58])
        made += data[at:begin] + on_pages(data[begin:end]) + data[end : end + end % 2]
        at = end + end % 2
    return bytes(made)
