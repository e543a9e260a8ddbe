"""What .ci/run prints and how it ends, in a small repository where stand-ins take the place of the tools and of rt, cargo and git."""
import os
import pathlib
import re
import shutil
import subprocess

from tests.trees import TreeTest

GATE = pathlib.Path(__file__).resolve().parents[2] / ".ci/run"
TOOLS = ("check-contracts", "check-docs", "check-edits", "check-desk", "check-examples", "check-programs", "check-linked", "compare", "run")
COMMANDS = ("rt", "cargo", "git", "shellcheck")
CLOSING = "7 passed, 0 failed"
WELL = "rt: ok; handles allowed: none; must-fail edits: 5 refused; every proof and must-fail edit was done in this run"
# It says its own words, and ends badly where FAULT is the beginning of them.
STAND_IN = f"""#!/bin/sh
said="$(basename "$0") $*"
echo "$said"
case "$said" in "rt ci") echo "${{WELL-{WELL}}}"; echo "${{LAST:-{CLOSING}}}" ;; esac
case "$said" in "${{FAULT:-none}}"*) exit 1 ;; esac
"""
STEPS = (
    "the second program's formatting", "the second program's tests", "the second program's build", "the second program's lints",
    "shell scripts", "the public contracts", "the rules and the promises", "the tools' own tests", "what the must-fail edits edit",
    "proofs, must-fail edits and programs", "what the must-fail edits are refused for",
    "the examples through the second program", "the examples and the desk", "the programs at their edges", "the header for C and the linked calls",
    "the comparison of both programs", "what each of several wrong operands is refused for",
)


class GateTest(TreeTest):
    """A base: a run of the gate."""

    FILES = {
        **{f"tools/{name}": STAND_IN for name in TOOLS},
        **{f"bin/{name}": STAND_IN for name in COMMANDS},
        "second/Cargo.toml": "",
        "tools/tests/test_one.py": "import unittest\n\n\nclass One(unittest.TestCase):\n    def test_one(self):\n        pass\n",
        "tools/tests/__init__.py": "",
    }

    def run_gate(self, **settings):
        """The lines that the gate prints, and its status."""
        self.write()
        (self.top / ".ci").mkdir(exist_ok=True)
        shutil.copy(GATE, self.top / ".ci/run")
        for path in (*self.top.glob("bin/*"), *self.top.glob("tools/[cr]*")):
            path.chmod(0o755)
        environment = {**os.environ, "PATH": f"{self.top}/bin:{os.environ['PATH']}", **settings}
        done = subprocess.run([self.top / ".ci/run"], stdout=subprocess.PIPE, stderr=subprocess.STDOUT, env=environment, timeout=60)
        return done.stdout.decode().splitlines(), done.returncode

    def assertFails(self, step, **settings):
        """The run ends with status 1, and its last line names the step."""
        lines, status = self.run_gate(**settings)
        self.assertEqual((lines[-1], status), (f"FAILED: {step}", 1), lines)
        self.assertNotIn(CLOSING, lines[-1:])
        return lines


class Passes(GateTest):
    """A run in which all is well."""

    done = None

    def good_run(self):
        """The lines and the status of such a run, made once for all tests."""
        Passes.done = Passes.done or self.run_gate()
        return Passes.done

    def test_the_last_line(self):
        lines, status = self.good_run()
        self.assertEqual((lines[-1], status), (CLOSING, 0), lines)

    def test_each_step_says_its_seconds(self):
        lines, _ = self.good_run()
        self.assertCountEqual([match.group(1) for line in lines if (match := re.fullmatch(r"-- (.+): \d+ s", line))], STEPS)

    def test_the_table_has_each_step_and_the_whole(self):
        lines, _ = self.good_run()
        table = lines[lines.index(" seconds  step") + 1 : -1]
        self.assertTrue(all(re.match(r" *\d+  \S", line) for line in table), table)
        self.assertCountEqual([line[10:] for line in table[:-1]], STEPS)
        self.assertEqual(table[-1][10:], "the whole run")

    def test_the_proofs_are_asked_for_once_and_plainly(self):
        lines, _ = self.good_run()
        self.assertEqual([line for line in lines if line.startswith("rt ")], ["rt ci"])

    def test_the_edits_are_read_by_what_was_said_of_them(self):
        lines, _ = self.good_run()
        self.assertTrue(any(re.fullmatch(r"check-edits --said \S+/rt-ci", line) for line in lines), lines)

    def test_only_edits_of_several_parts_are_tried_a_second_time(self):
        lines, _ = self.good_run()
        self.assertEqual([line for line in lines if line.startswith("check-edits --try")], ["check-edits --try --several"])

    def test_the_second_program_is_read_before_the_proofs(self):
        lines, _ = self.good_run()
        self.assertLess(lines.index("cargo fmt --check"), lines.index("rt ci"))
        self.assertIn("cargo clippy --all-targets --release --offline --locked --target-dir target -- --deny warnings", lines)

    def test_parts_of_the_toolchain_that_are_not_there(self):
        for part, words in (("fmt", "fmt --check"), ("clippy", "clippy --all-targets")):
            with self.subTest(part):
                lines, status = self.run_gate(FAULT=f"cargo {part} --version")
                self.assertEqual((lines[-1], status), (CLOSING, 0), lines)
                self.assertIn(f"skipped: there is no 'cargo {part}' here", lines)
                self.assertFalse([line for line in lines if line.startswith(f"cargo {words}")])


class Fails(GateTest):
    """Runs in which a step fails."""

    def test_a_step(self):
        lines = self.assertFails("the rules and the promises", FAULT="check-docs")
        self.assertNotIn("rt ci", lines)
        self.assertEqual(lines[-2][10:], "the whole run")

    def test_a_step_beside_others(self):
        for step, fault in (("formatting", "cargo fmt --check"), ("tests", "cargo test"), ("build", "cargo build"), ("lints", "cargo clippy --all")):
            with self.subTest(step):
                lines = self.assertFails(f"the second program's {step}", FAULT=fault)
                self.assertNotIn("rt ci", lines)

    def test_the_last_steps(self):
        self.assertFails("the comparison of both programs", FAULT="compare")
        self.assertFails("what each of several wrong operands is refused for", FAULT="check-edits --try")

    def test_programs_that_are_not_there(self):
        lines = self.assertFails("proofs, must-fail edits and programs", FAULT="run --note")
        self.assertIn("rt ci", lines)

    def test_the_proofs(self):
        self.assertFails("proofs, must-fail edits and programs", FAULT="rt ci")

    def test_proofs_that_end_with_another_line(self):
        for last in ("6 passed, 1 failed", "0 passed, 0 failed", "nothing"):
            with self.subTest(last):
                self.assertFails("proofs, must-fail edits and programs", LAST=last)

    def test_bad_must_fail_edits(self):
        for bad in ("5 refused, 1 bad", "5 refused, 2 of them only by a limit, 12 bad", "0 refused, 7 bad"):
            with self.subTest(bad):
                lines = self.assertFails("proofs, must-fail edits and programs", WELL=WELL.replace("5 refused", bad))
                self.assertIn("there are bad must-fail edits, as rt ci tells above", lines)

    def test_proofs_that_do_not_say_that_all_is_well(self):
        lines = self.assertFails("proofs, must-fail edits and programs", WELL="")
        self.assertIn("rt ci says nothing that begins with 'rt: ok'", lines)

    def test_no_tests_at_all(self):
        self.files["tools/tests/test_one.py"] = ""
        self.assertFails("the tools' own tests")
