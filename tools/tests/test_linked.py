"""Wrong headers for C, and proved declarations that C cannot have: tools/check-linked has to refuse each. Nothing is proved here."""
import pathlib
import sys
import tempfile
import unittest

TOOLS = pathlib.Path(__file__).resolve().parent.parent
if str(TOOLS) not in sys.path:
    sys.path.insert(0, str(TOOLS))

from commands import TOP
from kit import INCLUDE
from linked.header import HEADER, check_header
from linked.layout import proved_declarations
from linked.sources import Sources, Unfit
from linked.trials import unseen

COMPILER = ["gcc"]
PEN = "struct pen { struct strike last; _Bool any, full; };"
STRIKE = "struct strike { u16 latch; _Bool inside; };"
SCAN = "struct scan { u8 column, line, row; u16 base, start; u8 field; _Bool adjusting; };"
CLOCK = "struct controller controller_clock(struct controller c, u16 n);"
LOCATE = "struct found controller_locate(struct controller c);"
RESET = "struct controller controller_reset(struct controller c);"
REPORT = "u8 settings_report(const u8 *settings, unsigned long settings_count, u64 *places, unsigned long places_count);"
LONGEST = "typedef unsigned long long u64;"

# What is wrong with a header: the words of it that are replaced, those in their place, and words of the refusal.
WRONG_HEADERS = {
    "two fields of one type swapped": (PEN, PEN.replace("any, full", "full, any"), "struct pen: any is not at byte 4"),
    "two fields of one type swapped in a row": (SCAN, SCAN.replace("column, line", "line, column"), "struct scan: line is not at byte 1"),
    "two whole structs swapped": ("struct sync sync;\n    struct facts left;", "struct facts left;\n    struct sync sync;",
                                  "struct controller: sync is not at byte 28"),
    "a wider field": (SCAN, SCAN.replace("u8 field", "u16 field"), "struct scan: the size of field is not 1"),
    "a narrower field": (STRIKE, STRIKE.replace("u16 latch", "u8 latch"), "struct strike: the size of latch is not 2"),
    "a field too many": (SCAN, SCAN.replace("u8 field;", "u8 field, more;"), "struct scan: adjusting is not at byte 9"),
    "a number where a truth value is": (SCAN, SCAN.replace("_Bool adjusting", "u8 adjusting"), "adjusting is no proved_bool"),
    "a signed field": (STRIKE, STRIKE.replace("u16 latch", "short latch"), "latch is no proved_u16"),
    "a shorter array": ("held[16]", "held[15]", "struct registers: the size of held is not 16"),
    "a field missing": (PEN, PEN.replace(", full", ""), "full"),
    "a field missing before padding": (SCAN, SCAN.replace(", row", ""), "row"),
    "a field that hides in padding": (SCAN, SCAN.replace("line, row", "line, row, extra"), "scan"),
    "a field that hides in the end's padding": (STRIKE, STRIKE.replace("inside", "inside, extra"), "strike"),
    "a field of another name": (PEN, PEN.replace("any", "every"), "any"),
    "fields without padding": (SCAN, SCAN.replace("};", "} __attribute__((packed));"), "struct scan"),
    "fields further apart": (STRIKE, STRIKE.replace("};", "} __attribute__((aligned(8)));"), "struct strike: its alignment is not 2"),
    "a struct missing": ("struct display { u16 b; u8 x, y; };", "struct display;", "display"),
    "a struct that is not proved": (PEN, PEN + " struct beam { u8 width; };", "the struct beam"),
    "a wider parameter": (CLOCK, CLOCK.replace("u16 n", "unsigned n"), "controller_clock"),
    "a narrower parameter": (CLOCK, CLOCK.replace("u16 n", "u8 n"), "controller_clock"),
    "a pointer for a struct": (RESET, RESET.replace("controller c)", "controller *c)"), "controller_reset"),
    "a parameter missing": (CLOCK, CLOCK.replace(", u16 n", ""), "controller_clock"),
    "a parameter too many": (RESET, RESET.replace("c)", "c, u16 n)"), "controller_reset"),
    "parameters left open": (RESET, RESET.replace("struct controller c)", ")"), "prototype"),
    "another result": (LOCATE, LOCATE.replace("struct found", "struct display"), "controller_locate"),
    "a part that could be changed": (REPORT, REPORT.replace("const u8", "u8"), "settings_report"),
    "a part that could not be changed": (REPORT, REPORT.replace("u64 *places", "const u64 *places"), "settings_report"),
    "parts in the other order": (REPORT, "u8 settings_report(u64 *places, unsigned long m, const u8 *settings, unsigned long n);",
                                 "settings_report"),
    "a part without its count": (REPORT, REPORT.replace(", unsigned long places_count", ""), "settings_report"),
    "a narrower count": (REPORT, REPORT.replace("long settings_count", "settings_count"), "settings_report"),
    "a signed count": (REPORT, REPORT.replace("unsigned long places_count", "long places_count"), "settings_report"),
    "a count before its part": (REPORT, "u8 settings_report(unsigned long n, const u8 *settings, u64 *places, unsigned long m);",
                                "settings_report"),
    "a part of narrower places": (REPORT, REPORT.replace("u64 *places", "unsigned *places"), "settings_report"),
    "narrower numbers of 64 bits": (LONGEST, LONGEST.replace("long long ", ""), "settings_report"),
    "a wider refusal": (REPORT, REPORT.replace("u8 settings_report", "u16 settings_report"), "settings_report"),
    "a call missing": (LOCATE, "", "controller_locate"),
    "a call that is not exported": (LOCATE, LOCATE + " void controller_halt(void);", "the call controller_halt"),
}

PLAIN_CRATES = {
    "exports/src/lib.rt": """use inner::Part;
        #[repr(C)]
        pub struct Whole { pub parts: [Part; 3], pub last: u64 }
        #[unsafe(no_mangle)]
        pub extern "C" fn turned(w: Whole, by: u32) -> Part
            ensures { anything }
        { w.parts[0] }
        pub struct Unseen { pub a: u8 }
        """,
    "inner/src/lib.rt": "mod part;\npub use part::Part;\n",
    "inner/src/part.rt": """// A part.
        #[repr(C)]
        pub struct Part {
            // how many, of u64 at most
            pub count: u16,
            pub flag: bool,
        }
        pub enum Choice { One, Other(u8) }
        """,
}

# What is wrong with the sources: the file, the words of it that are replaced, those in their place, and words of the refusal.
WRONG_SOURCES = {
    "a struct without its layout": ("inner/src/part.rt", "#[repr(C)]", "", "Part, in crates/inner/src/part.rt, lacks #[repr(C)]"),
    "a struct of another layout": ("inner/src/part.rt", "#[repr(C)]", "#[repr(C, packed)]", "lacks #[repr(C)]"),
    "an enum in a struct": ("inner/src/part.rt", "flag: bool", "flag: Choice", "Choice, in crates/inner/src/part.rt, is an enum"),
    "an enum as a result": ("exports/src/lib.rt", "-> Part", "-> inner::Choice", "turned: Choice"),
    "a type that C cannot have": ("inner/src/part.rt", "count: u16", "count: &[u16]", "'&[u16]'"),
    "a struct that is nowhere": ("exports/src/lib.rt", "use inner::Part;", "", "Part"),
    "an array as a parameter": ("exports/src/lib.rt", "by: u32", "by: [u8; 4]", "C passes no arrays"),
    "a part as a result": ("exports/src/lib.rt", "-> Part", "-> &[u8]", "'[u8]'"),
    "a part of parts": ("exports/src/lib.rt", "by: u32", "by: &[&[u8]]", "'&[u8]'"),
    "a part of arrays": ("exports/src/lib.rt", "by: u32", "by: &[[u8; 4]]", "'[[u8; 4]]'"),
    "a part of enums": ("exports/src/lib.rt", "by: u32", "by: &[inner::Choice]", "turned: Choice"),
    "a part that is not lent": ("exports/src/lib.rt", "by: u32", "by: [u8]", "'[u8]'"),
    "no exported call": ("exports/src/lib.rt", "#[unsafe(no_mangle)]", "", "export no call"),
    "two crates that export": ("inner/src/lib.rt", "mod part;", 'mod part; #[unsafe(no_mangle)] pub extern "C" fn more() { }',
                               "exports and inner both export calls"),
    "two structs of one name": ("exports/src/lib.rt", "pub struct Unseen { pub a: u8 }",
                                '#[repr(C)] pub struct PART { pub a: u8 } #[unsafe(no_mangle)] pub extern "C" fn seen(p: PART) { }',
                                "would both be 'struct part'"),
}


def replaced(text, old, new):
    """A text with its one place of some words changed."""
    if text.count(old) != 1:
        raise ValueError(f"'{old}' stands {text.count(old)} times in the text, and not once")
    return text.replace(old, new)


class Headers(unittest.TestCase):
    """The header as it is, and wrong ones."""

    @classmethod
    def setUpClass(cls):
        cls.proved = proved_declarations(Sources(TOP / "crates"))
        cls.header = (INCLUDE / HEADER).read_text()

    def check(self, text):
        """Holds a header to the proved declarations."""
        with tempfile.TemporaryDirectory() as folder:
            room = pathlib.Path(folder)
            (room / HEADER).write_text(text)
            check_header(COMPILER, room, *self.proved, room)

    def test_the_header_fits(self):
        self.check(self.header)

    def test_wrong_headers_are_refused(self):
        for what, (old, new, words) in WRONG_HEADERS.items():
            with self.subTest(what), self.assertRaises(Unfit) as refused:
                self.check(replaced(self.header, old, new))
            with self.subTest(f"{what}: the words"):
                self.assertIn(words, str(refused.exception))


class Declarations(unittest.TestCase):
    """What is read from the Rattle sources."""

    def proved(self, file=None, old="", new=""):
        """The declarations of the small crates, with words of one file changed."""
        with tempfile.TemporaryDirectory() as folder:
            crates = pathlib.Path(folder) / "crates"
            for name, text in PLAIN_CRATES.items():
                path = crates / name
                path.parent.mkdir(parents=True, exist_ok=True)
                path.write_text(replaced(text, old, new) if name == file else text)
            return proved_declarations(Sources(crates))

    def test_layout(self):
        shapes, calls = self.proved()
        self.assertEqual([(shape.name, shape.size, shape.align) for shape in shapes], [("part", 4, 2), ("whole", 24, 8)])
        places = {shape.name: [(field.name, field.at, field.laid.size) for field in shape.fields] for shape in shapes}
        self.assertEqual(places["part"], [("count", 0, 2), ("flag", 2, 1)])
        self.assertEqual(places["whole"], [("parts", 0, 12), ("last", 16, 8)])
        self.assertEqual([(call.name, len(call.parameters), call.result.base) for call in calls], [("turned", 2, "struct part")])

    def test_lent_structs_are_pointers(self):
        _shapes, calls = self.proved("exports/src/lib.rt", "turned(w: Whole", "turned(w: &mut Whole")
        self.assertEqual(calls[0].parameters[0][1].base, "struct whole *")

    def test_lent_parts_are_a_pointer_and_a_count(self):
        for words, base in (("&[u8]", "const proved_u8 *"), ("&mut [u64]", "proved_u64 *"), ("& [ Part ]", "const struct part *")):
            with self.subTest(words):
                shapes, calls = self.proved("exports/src/lib.rt", "by: u32", f"by: {words}")
                whole, *part = [(name, laid.base, laid.size) for name, laid in calls[0].parameters]
                self.assertEqual(whole, ("w", "struct whole", 24))
                self.assertEqual(part, [("by", base, 8), ("by_count", "proved_usize", 8)])
                self.assertEqual([shape.name for shape in shapes], ["part", "whole"])

    def test_a_count_in_a_struct(self):
        shapes, _calls = self.proved("inner/src/part.rt", "count: u16", "count: usize")
        self.assertEqual([(shape.name, shape.size, shape.align) for shape in shapes], [("part", 16, 8), ("whole", 56, 8)])

    def test_wrong_sources_are_refused(self):
        for what, (file, old, new, words) in WRONG_SOURCES.items():
            with self.subTest(what), self.assertRaises(Unfit) as refused:
                self.proved(file, old, new)
            with self.subTest(f"{what}: the words"):
                self.assertIn(words, str(refused.exception))


class Shown(unittest.TestCase):
    """What the batches that go through C have to show, each sort of answer among them."""

    ENOUGH = ["0200014000000000", "0200000000000000", "0300000000000000", "03000000001f0000"] + [f"09{number:02x}" + 12 * "0" for number in (0, 5, 6, 7, 8)]

    def test_enough(self):
        self.assertIsNone(unseen(self.ENOUGH))

    def test_each_is_missed(self):
        for line in self.ENOUGH:
            with self.subTest(line):
                self.assertIsNotNone(unseen([other for other in self.ENOUGH if other != line]))


if __name__ == "__main__":
    unittest.main()
