"""That the measured functions are put on pages, and that nothing else of an object changes."""
import struct
import unittest

from speed.pages import MEMBER, on_pages

HEADER, SECTION = 64, 64
CODE_AND_LOADED, LOADED = 6, 2


def object_of(*flags):
    """An object file with sections of these flags, each told to begin at a multiple of 16."""
    data = bytearray(HEADER + SECTION * len(flags))
    data[:6] = b"\x7fELF\x02\x01"
    struct.pack_into("<Q", data, 0x28, HEADER)
    struct.pack_into("<HH", data, 0x3A, SECTION, len(flags))
    for number, flag in enumerate(flags):
        struct.pack_into("<Q", data, HEADER + SECTION * number + 0x08, flag)
        struct.pack_into("<Q", data, HEADER + SECTION * number + 0x30, 16)
    return bytes(data)


def member_of(data):
    """A member of an archive."""
    head = b"name/".ljust(48) + str(len(data)).encode().ljust(10) + b"`\n"
    assert len(head) == MEMBER
    return head + data + b"\n" * (len(data) % 2)


def places_of(data):
    """Where each section of an object begins: at a multiple of these."""
    count, = struct.unpack_from("<H", data, 0x3C)
    return [struct.unpack_from("<Q", data, HEADER + SECTION * number + 0x30)[0] for number in range(count)]


class Pages(unittest.TestCase):
    def test_code_alone_moves(self):
        before = object_of(0, CODE_AND_LOADED, LOADED, CODE_AND_LOADED)
        after = on_pages(before)
        self.assertEqual(places_of(after), [16, 4096, 16, 4096])
        self.assertEqual(sum(old != new for old, new in zip(before, after)), 4)  # 16 and 4096 differ in two bytes
        self.assertEqual(len(before), len(after))

    def test_every_member_of_an_archive(self):
        first, second = object_of(CODE_AND_LOADED), object_of(LOADED, CODE_AND_LOADED)
        before = b"!<arch>\n" + member_of(b"odd") + member_of(first) + member_of(second)
        after = on_pages(before)
        self.assertEqual(after, b"!<arch>\n" + member_of(b"odd") + member_of(on_pages(first)) + member_of(on_pages(second)))
        self.assertNotEqual(after, before)

    def test_anything_else_stays(self):
        self.assertEqual(on_pages(b"words"), b"words")


if __name__ == "__main__":
    unittest.main()
