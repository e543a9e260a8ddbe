"""The tables of tools/bench, two archives measured in turn, and what is said where the Rust side cannot be compiled. Nothing is proved or
measured here."""
import os
import pathlib
import platform
import runpy
import subprocess
import sys
import unittest
from unittest import mock

from commands import TOP, CannotRun
from kit import Kit
from speed import build
from speed.programs import Whole
from speed.table import ROWS, before_table, table
from tests.trees import TreeTest

BENCH = runpy.run_path(str(TOP / "tools" / "bench"), run_name="bench")

# It notes what it is asked, and answers 'rt doc'.
RT = '#!/bin/sh\ntop="${0%/bin/rt}"\necho "$*" >>"$top/asked"\necho "$top/docs/guide"\n'
# It has no library for x86-64, and writes text for the machine that it runs on.
RUSTC = """#!/bin/sh
case "$*" in
    --version) echo "rustc 9.9" ;;
    *llvm-ir*) while [ "$1" != -o ]; do shift; done; while read -r line; do echo "$line"; done <"${0%/bin/rustc}/written" >"$2" ;;
    *) echo "error: no core for x86-64"; exit 1 ;;
esac
"""
CLANG = '#!/bin/sh\n[ "$*" = --version ] && echo "clang 8" && exit\necho "plain.ll: error: expected type"\nexit "${REFUSES:-0}"\n'
WRITTEN = """source_filename = "plain"
target datalayout = "e-m:e-i8:8:32-i128:128"
target triple = "aarch64-unknown-linux-gnu"
attributes #0 = { nounwind "frame-pointer"="non-leaf" "target-cpu"="generic" "target-features"="+v8a" }
"""
RETARGETED = """source_filename = "plain"
attributes #0 = { nounwind "target-cpu"="x86-64" }
"""


class Table(unittest.TestCase):
    """Two sides, and one ratio."""

    def lines(self, emulator=None):
        """The table of sides that differ by 2, and by 200 in the first row."""
        times = {name: [0.5, 100.0 if name == ROWS[0][0] else 1.0] for name, _ in ROWS}
        return table(Kit("machine", None, None, emulator), "rustc 9.9", times, Whole(0.5, 2.0, None)).splitlines()

    def test_the_columns(self):
        lines = self.lines()
        self.assertEqual(lines[0].split(), ["proved", "Rust", "Rust/proved"])
        self.assertEqual(lines[1].split(), ["what", "ns", "each", "ns", "each", "ratio"])
        self.assertIn("Rust: rustc 9.9", lines)

    def test_the_ratios(self):
        rows = self.lines()[3:]
        for (_, what), row in zip(ROWS, rows):
            self.assertEqual(row.split(), what.split() + (["0.5", "100", "200"] if row == rows[0] else ["0.5", "1", "2.00"]))
        self.assertEqual(rows[len(ROWS)].split()[-1], "4.00")

    def test_whole_programs_are_not_compared_under_the_emulator(self):
        self.assertEqual(self.lines("emulator")[3 + len(ROWS)].split()[-2:], ["-", "-"])


class Before(unittest.TestCase):
    """Two archives, measured in turn."""

    def test_the_table(self):
        before, now = ({name: [time, 9.0] for name, _ in ROWS} for time in (3.0, 2.0))
        lines = before_table(before, now).splitlines()
        self.assertEqual(lines[0].split(), ["before", "now", "before/now"])
        self.assertEqual([line.split() for line in lines[3:-2]], [what.split() + ["3", "2", "1.50"] for _, what in ROWS])

    def test_the_best_of_each_in_turn(self):
        programs, ran = [pathlib.Path("before"), pathlib.Path("now")], []
        taken = iter([[5.0, 8.0], [9.0, 7.0], [3.0, 9.0], [6.0, 8.0], [4.0, 9.0], [7.0, 6.0]])

        def run_harness(_, program):
            ran.append(program)
            return {"row": next(taken)}

        with mock.patch.dict(BENCH["run_in_turn"].__globals__, run_harness=run_harness, say=mock.Mock()):
            best = BENCH["run_in_turn"](None, programs)
        self.assertEqual(best, [{"row": [3.0, 8.0]}, {"row": [6.0, 6.0]}])
        self.assertEqual(ran, programs * 3)

    def test_a_difference_names_the_archive(self):
        with self.assertRaisesRegex(BENCH["Differs"], r"^locate: Rust is not where the proved code \(before\) is, after 20 steps$"):
            BENCH["measured"]("differs\tlocate\t20\n", pathlib.Path("before"))


class Linked(TreeTest):
    """The measured program over an archive of any place, by a linker that only notes what it is given."""

    FILES = {"linker": '#!/bin/sh\nwhile [ "$1" != -o ]; do shift; done\necho "$*" >"$2"\n', "plain.o": "rust", "harness.o": "c",
             "elsewhere/libexports.a": "earlier"}

    def test_its_parts(self):
        self.write()
        (self.top / "linker").chmod(0o755)
        kit = Kit("machine", self.top, self.top / "linker", None)
        with mock.patch.object(build, "ROOM", self.top):
            program = build.link_measured(kit, "before", self.top / "elsewhere/libexports.a")
        self.assertEqual(program, self.top / "before")
        parts = [str(self.top / name) for name in ("before", "harness.o", "plain-on-pages.o", "before.a")]
        self.assertEqual(program.read_text().split(), ["-o", *parts])
        self.assertEqual([pathlib.Path(part).read_text() for part in parts[1:]], ["c", "rust", "earlier"])


class RustSide(TreeTest):
    """How the Rust side is compiled, or why it is not, by stand-ins that alone are on the PATH."""

    FILES = {"bin/rt": RT, "bin/rustc": RUSTC, "written": WRITTEN, "toolchain/bin/clang": CLANG,
             "toolchain/lib/ld-linux-x86-64.so.2": "", "bin/rattle-link": "", f"on/{platform.machine()}/toolchain/bin/qemu-x86_64": "#!/bin/sh\n"}

    def write(self):
        super().write()
        for path in self.top.glob("**/bin/*"):
            path.chmod(0o755)

    def assertRefused(self, words, emulator, **settings):
        """The build is refused with these words, and has proved nothing."""
        self.write()
        kit = Kit("machine", self.top / "toolchain", None, emulator)
        with mock.patch.dict(os.environ, {"PATH": f"{self.top}/bin", **settings}), \
                mock.patch.multiple(build, ROOM=self.top, say=mock.DEFAULT, prove_archive=mock.DEFAULT) as instead:
            with self.assertRaises(CannotRun) as refused:
                build.build(kit, True)
            instead["prove_archive"].assert_not_called()
        self.assertEqual(str(refused.exception), words)

    def test_no_library_for_x86_64_on_x86_64(self):
        self.assertRefused("rustc refused plain.rs: error: no core for x86-64", None)

    def test_text_that_clang_refuses(self):
        self.assertRefused("the kit's clang does not take what rustc 9.9 writes: plain.ll: error: expected type", "emulator", REFUSES="1")

    def test_text_that_clang_takes(self):
        self.write()
        with mock.patch.dict(os.environ, {"PATH": f"{self.top}/bin"}), mock.patch.object(build, "ROOM", self.top):
            made = build.compile_rust(Kit("machine", self.top / "toolchain", None, "emulator"), self.top / "plain.o")
        self.assertEqual(made, "rustc 9.9, opt-level 3, then the kit's clang 8 -O3 to x86-64")
        self.assertEqual((self.top / "plain.ll").read_text(), RETARGETED)

    def assertNothingDone(self, problem, *words):
        """The tool says what is missing, and has proved nothing."""
        self.write()
        done = subprocess.run([sys.executable, TOP / "tools" / "bench", *words], env={**os.environ, "PATH": f"{self.top}/bin"},
                              stdin=subprocess.DEVNULL, capture_output=True, text=True, timeout=60)
        self.assertEqual((done.stdout, done.stderr, done.returncode), ("", f"tools/bench: {problem}\n", 2))
        self.assertEqual((self.top / "asked").read_text(), "doc\n")

    def test_no_rustc(self):
        del self.files["bin/rustc"]
        self.assertNothingDone("the command rustc is not on the PATH")

    def test_no_archive_of_before(self):
        self.assertNothingDone(f"there is no file {self.top / 'none.a'}", "--before", self.top / "none.a")


if __name__ == "__main__":
    unittest.main()
