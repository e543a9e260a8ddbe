"""What tools/check-desk tries the desk program on."""
from typing import NamedTuple

from commands import TOP
from records import GREATEST_FIELDS, record


class Trial(NamedTuple):
    """One call: its words, its status, what it prints, parts of what it says on standard error (none: nothing), the files there, and its
    standard input."""

    words: tuple
    status: int
    printed: bytes
    said: tuple
    files: dict = {}
    given: bytes = b""

    def is_met_by(self, status, printed, said):
        """Whether a call ended and said what is due; where nothing is due on standard error, it said nothing there."""
        heard = all(part in said for part in self.said) if self.said else not said
        return heard and (status, printed) == (self.status, self.printed)


def edges():
    """Records of each kind, known or not, with each field at its limits and one past them."""
    made = []
    for kind in (*range(0, 13), 128, 255):
        limits = GREATEST_FIELDS.get(kind, (0, 0, 0))
        for place, most in enumerate(limits):
            for value in {0, 1, most, min(most + 1, 255), 255}:
                fields = [0, 0, 0]
                fields[place] = value
                made.append(record(kind, *fields))
    return b"".join(made)


CLOCK = bytes((3, 0, 0, 0))  # none at all, so the fresh chip shows where it is
SHOWN, DONE = b"0300000000100000\n", b"0100000000000000\n"
# Setting A in words and as bytes, and what is counted of it.
A_IN_WORDS = b"R0 = 3; R1 = 2; R4 = 1; R5 = 1; R6 = 2; R9 = $01\n"
A = bytes((3, 2, 0, 0, 1, 1, 2, 0, 0, 1, 0, 0, 0, 0, 0, 0))
A_COUNTED = b"8 8 1 0 20 32 3\ntotal 8 8 1 0 20 32 3\n"
A_TABLE = b"""\
setting  picture  enable  cursor  HSYNC  VSYNC  MA changes  largest
1              8       8       1      0     20          32        3
total          8       8       1      0     20          32        3
"""
# One byte of which less is kept, and the same as it is kept.
KEPT = b"# two\r\nsetting as told # $C8\r\nR1 = 1; R6 = 1; R4 = 200; R15 = 1\r\nsetting as kept; R1=1; R6=1; R4=72; R15=1\r\n"
KEPT_TABLE = b"""\
setting     picture  enable  cursor  HSYNC  VSYNC  MA changes  largest
1  as told        1       1       0      0     16         144        7
2  as kept        1       1       0      0     16         144        7
total             2       2       0      0     32         288        7

R4 = 200 in setting 1: the register keeps 72
"""
NO_SETTING = b"refused 10: there is no setting. Begin one with the word 'setting', or give 16 bytes for each, R0 to R15.\n"

COUNTED = (
    Trial(("counts", "a.settings"), 0, A_TABLE, (), {"a.settings": A_IN_WORDS}),
    Trial(("counts", "kept.settings"), 0, KEPT_TABLE, (), {"kept.settings": KEPT}),
    Trial(("counts", "--plain", "a.hex"), 0, b"8 8 1 0 20 32 3\n8 8 1 0 20 32 3\ntotal 16 16 2 0 40 64 3\n", (),
          {"a.hex": 2 * (A.hex().encode() + b" # A\n")}),
    Trial(("counts", "a.bin", "--plain"), 0, A_COUNTED, (), {"a.bin": A}),
    Trial(("counts", "--as", "bytes", "--plain", "a.txt"), 0, A_COUNTED, (), {"a.txt": A}),
    Trial(("counts", "--as", "words", "-"), 0, A_TABLE, (), given=b"setting\n" + A_IN_WORDS),
    Trial(("counts", "-"), 2, b"", ("standard input", ".settings", "--as"), given=A_IN_WORDS),
    Trial(("counts", "good.batch"), 2, b"", ("good.batch", ".settings (words)"), {"good.batch": A_IN_WORDS}),
    Trial(("counts", "wrong.settings"), 2, b"",
          ("line 2: R0 is set twice", "line 3: 'R16'", "R0 to R15", "line 4", "no word 'clock'", "line 5: 256", "0 to 255"),
          {"wrong.settings": b"R0 = 1\nR0 = 1\nR16 = 0\nclock 1\nsetting B; R0 = 256\n"}),
    Trial(("counts", "wrong.hex"), 2, b"", ("wrong.hex, line 2", "odd number"), {"wrong.hex": A.hex().encode() + b"\n012\n"}),
    Trial(("counts", "empty.settings"), 0, NO_SETTING, (), {"empty.settings": b"# none\n"}),
    Trial(("counts", "--plain", "empty.settings"), 0, b"refused 10\n", ("there is no setting",), {"empty.settings": b"# none\n"}),
    Trial(("counts", "--plain", "cut.bin"), 0, b"refused 10\n", ("3 of a setting's 16 bytes", "behind 1 whole one."), {"cut.bin": A + A[:3]}),
    Trial(("counts", "--plain", "many.settings"), 0, b"refused 10\n", ("there are 65 settings", "at most 64"),
          {"many.settings": 65 * b"setting;"}),
    Trial(("counts", "--plain", "most.settings"), 0, 64 * b"0 0 0 0 1 0 0\n" + b"total 0 0 0 0 64 0 0\n", (),
          {"most.settings": 64 * b"setting;"}),
)

# Calls on a line: a record in two cuts, without room and with it, closing, and a call after that.
HALVES = b"cut 0 030000  # three bytes\r\ncut 7 00\ncut $8 00\nclose\nclose"
HALVES_IN_HEX = b"01 0000 0003 030000 # three bytes\n01 0007 0001 00\n01 0008 0001 00\n02 02\n"
HALVES_MADE = b"0000030000000000\n0400000000000000\na5a5a5a5a5a5a5\n0000010001000000\n" + SHOWN + b"0000000000000000\n0c00000000000000\n"
HALVES_IN_WORDS = b"""\
cut 0 030000  # three bytes
    ended with 0: no whole record is left; 3 of 3 bytes taken; 03 00 00 held for the next call
    0 of 0 output bytes stayed as they were
cut 7 00
    ended with 4: the next answer has no room; 0 of 1 byte taken; 03 00 00 held for the next call
    7 of 7 output bytes stayed as they were
    call again with the rest, with 8 bytes of room at least: 00
cut 8 00
    ended with 0: no whole record is left; 1 of 1 byte taken; nothing held
    03000000  0300000000100000  clock 0: MA $0000, RA 0, outside the picture, VSYNC
    0 of 8 output bytes stayed as they were
close
    ended with 0: the line is closed, and no byte was held
close
    ended with 12: the line was closed before, and nothing changes
"""
OFF_A_LINE = (
    Trial(("serial", "-"), 0, SHOWN + b"end 0\n", (), given=CLOCK),
    Trial(("serial", "-"), 0, SHOWN + b"end 3\n", ("09 00", "2 of a record's 4"), given=CLOCK + b"\x09\0"),
    Trial(("serial", "-"), 0, b"end 0\n", ("it has no record",)),
    Trial(("serial", "long.bin"), 0, 5000 * SHOWN + b"end 0\n", (), {"long.bin": 5000 * CLOCK}),
    Trial(("serial", "--explain", "cut.bin"), 0, b"03000000  0300000000100000  clock 0: MA $0000, RA 0, outside the picture, VSYNC\n"
          b"          end 3             the last bytes, 09, are 1 of a record's 4: the file was cut, or a byte is missing or too many "
          b"somewhere before. All whole records are answered.\n", (), {"cut.bin": CLOCK + b"\x09"}),
    Trial(("serial", "good.batch"), 2, b"", ("good.batch", "bytes are read here", "bytes FILE | "), {"good.batch": b"strike\n"}),
    Trial(("serial", "missing"), 2, b"", ("missing: there is no such file",)),
    Trial(("serial", "."), 2, b"", ("this is a folder",)),
    Trial(("cuts", "halves.calls"), 0, HALVES_IN_WORDS, (), {"halves.calls": HALVES}),
    Trial(("cuts", "halves.hex"), 0, HALVES_IN_WORDS, (), {"halves.hex": HALVES_IN_HEX}),
    Trial(("cuts", "--plain", "halves.calls"), 0, HALVES_MADE, (), {"halves.calls": HALVES}),
    Trial(("cuts", "--plain", "halves.bin"), 0, b"0000000000000000\n0c00000000000000\n", (), {"halves.bin": b"\2\2"}),
    Trial(("cuts", "--as", "words", "--plain", "-"), 0, b"0000000000000000\n", (), given=b"close"),
    Trial(("cuts", "wrong.calls"), 2, b"",
          ("line 1: the room is missing", "line 3: there is no word 'clse'", "line 4: 8193", "0 to 8192", "line 5: 'g'"),
          {"wrong.calls": b"cut\ncut 8\nclse\ncut 8193\ncut 8 0g\n"}),
    Trial(("cuts", "halves.batch"), 2, b"", ("halves.batch", ".calls (words)"), {"halves.batch": HALVES}),
    Trial(("cuts", "--plain", "none.calls"), 0, b"", ("it has no call",), {"none.calls": b"# none\n"}),
    Trial(("cuts", "--plain", "cut.hex"), 0, b"no call\n", ("call at byte 2", "1 of the 2 bytes"), {"cut.hex": b"02 01 0008 0002 04"}),
    Trial(("cuts", "--plain", "most.bin"), 0, b"0000000000000000\n" + 4095 * b"0c00000000000000\n", (), {"most.bin": 4096 * b"\2"}),
    Trial(("cuts", "--plain", "long.bin"), 0, b"no call\n", ("4,097 bytes", "at most 4,096"), {"long.bin": 4097 * b"\2"}),
)

TRIALS = (
    Trial(("listing", "good.batch"), 0, SHOWN + b"end 0\n", (), {"good.batch": b"clock 0  # VSYNC\r\n"}),
    Trial(("listing", "good.hex"), 0, SHOWN + b"end 0\n", (), {"good.hex": b"\xef\xbb\xbf0300 # a part\n0000"}),
    Trial(("listing", "good.bin"), 0, SHOWN + b"end 0\n", (), {"good.bin": CLOCK}),
    Trial(("listing", "--as", "bytes", "good.txt"), 0, SHOWN + b"end 0\n", (), {"good.txt": CLOCK}),
    Trial(("listing", "wrong.batch"), 2, b"", ("wrong.batch, line 2", "no word 'stirke'", "'strike'", "line 3", "0 to 255"),
          {"wrong.batch": b"strike\nstirke\nR0 = 256\n"}),
    Trial(("explain", "wrong.hex"), 2, b"", ("wrong.hex, line 1", "'g'"), {"wrong.hex": b"0g"}),
    Trial(("listing", "unknown.txt"), 2, b"", ("unknown.txt", ".batch", "--as"), {"unknown.txt": CLOCK}),
    Trial(("listing", "missing.batch"), 2, b"", ("missing.batch: there is no such file",)),
    Trial(("listing", "."), 2, b"", ("this is a folder",)),
    Trial(("listing", "-"), 2, b"", ("standard input", "--as")),
    Trial(("listing", "empty.batch"), 0, b"end 0\n", ("the batch is empty",), {"empty.batch": b""}),
    Trial(("listing", "cut.bin"), 0, SHOWN + b"end 3\n", ("09 00", "2 of a record's 4"), {"cut.bin": CLOCK + b"\x09\0"}),
    Trial(("explain", "cut.bin"), 0, b"          end 3             the last bytes, 09, are 1 of a record's 4: the file was cut, or a byte is missing "
          b"or too many somewhere before. All whole records are answered.\n", (), {"cut.bin": b"\x09"}),
    Trial(("words", "cut.bin"), 0, b"clock 0\nbytes 09 00\n", (), {"cut.bin": CLOCK + b"\x09\0"}),
    Trial(("listing", "long.bin"), 0, b"too long\n", ("5,000 bytes", "4,096", "1,024 records", "fresh"), {"long.bin": bytes(5000)}),
    Trial(("rooms", "8", "two.batch"), 0, b"0400040001000000\n" + SHOWN, (), {"two.batch": b"clock 0; clock 0\n"}),
    Trial(("rooms", "8", "cut.batch"), 0, b"0400040001000000\n" + SHOWN, (), {"cut.batch": b"clock 0; clock 0; bytes 09\n"}),
    Trial(("explain", "GOOD.BATCH"), 0, b"03000000  0300000000100000  clock 0: MA $0000, RA 0, outside the picture, VSYNC\n"
          b"          end 0             every record was answered\n", (), {"GOOD.BATCH": b"clock 0\n"}),
    Trial(("listing", "kept.batch"), 0, 3 * DONE + b"0200013f00000000\n" + 3 * DONE + b"020001ff00000000\nend 0\n", (),
          {"kept.batch": b"R14 = $FF; read R14; R15 = $FF; read R15\n"}),
    Trial(("cases",), 0, (TOP / "crates/cases/stdout").read_bytes(), ()),
    Trial(("rooms", "9000", "two.batch"), 2, b"", ("0 to 8192",), {"two.batch": b"clock 0; clock 0\n"}),
    Trial(("listen", "two.batch"), 2, b"", ("listen", "listing"), {"two.batch": b"clock 0; clock 0\n"}),
    Trial((), 2, b"", ("usage", "explain")),
    *COUNTED,
    *OFF_A_LINE,
)
