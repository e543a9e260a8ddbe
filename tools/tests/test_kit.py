"""Where the toolchain's kit has what is needed, in kits of both forms, with stand-ins for rt and for the kind of machine."""
import os
import platform
from unittest import mock

import kit
from commands import CannotRun
from tests.trees import TreeTest

LIBRARY = "toolchain/lib/ld-linux-x86-64.so.2"


class KitTest(TreeTest):
    """A base: a kit whose rt names a guide in it."""

    FILES = {"kit/bin/rt": "", "kit/START-HERE.md": "", f"kit/{LIBRARY}": "", "kit/bin/rattle-link": ""}
    GUIDE = "kit/START-HERE.md"

    def find(self, machine="x86_64"):
        """The kit as it is found on a kind of machine."""
        self.files["bin/rt"] = f"#!/bin/sh\necho {self.top / self.GUIDE}\n"
        self.write()
        for path in [self.top / "bin/rt", *self.top.rglob("qemu-x86_64")]:
            path.chmod(0o755)
        with mock.patch.object(platform, "machine", lambda: machine), \
                mock.patch.dict(os.environ, {"PATH": f"{self.top}/bin:/bin:/usr/bin"}):
            return kit.find_kit()


class Places(KitTest):
    """All is in the kit itself."""

    def test_on_the_machine_that_proved_code_is_for(self):
        found = self.find()
        self.assertEqual(found, ("x86_64", self.top / "kit/toolchain", self.top / "kit/bin/rattle-link", None))

    def test_the_words_that_run_a_program(self):
        library = self.top / "kit/toolchain/lib"
        self.assertEqual(kit.running(self.find(), "program"), [str(library / "ld-linux-x86-64.so.2"), "--library-path", str(library), "program"])

    def test_a_guide_further_down(self):
        self.files["kit/rattle/START.md"] = ""
        self.GUIDE = "kit/rattle/START.md"
        self.assertEqual(self.find().toolchain, self.top / "kit/toolchain")

    def test_an_emulator_where_the_programs_are(self):
        for place in ("kit/toolchain/bin", "kit/bin", "kit/deep/down"):
            with self.subTest(place):
                self.files = {**self.FILES, f"{place}/qemu-x86_64": ""}
                self.assertEqual(self.find("aarch64").emulator, self.top / place / "qemu-x86_64")
                (self.top / place / "qemu-x86_64").unlink()

    def test_an_emulator_on_the_path(self):
        self.files["bin/qemu-x86_64"] = ""
        self.assertEqual(self.find("aarch64").emulator, self.top / "bin/qemu-x86_64")

    def test_no_emulator(self):
        with mock.patch.object(kit.shutil, "which", lambda name: "rt" if name == "rt" else None), self.assertRaisesRegex(CannotRun, "has no emulator for aarch64"):
            self.find("aarch64")

    def test_no_loader(self):
        del self.files[f"kit/{LIBRARY}"]
        with self.assertRaisesRegex(CannotRun, "has nothing for this kind of machine, x86_64: no lib/ld-linux-x86-64.so.2"):
            self.find()


class Machines(KitTest):
    """The kit has a folder for each kind of machine."""

    FILES = {"kit/bin/rt": "", "kit/START-HERE.md": "", f"kit/on/aarch64/{LIBRARY}": "", "kit/on/aarch64/bin/rattle-link": "",
             "kit/on/aarch64/toolchain/bin/qemu-x86_64": ""}

    def test_that_of_the_machine(self):
        own = self.top / "kit/on/aarch64"
        self.assertEqual(self.find("aarch64"), ("aarch64", own / "toolchain", own / "bin/rattle-link", own / "toolchain/bin/qemu-x86_64"))

    def test_another_machine(self):
        with self.assertRaisesRegex(CannotRun, "has nothing for this kind of machine"):
            self.find("x86_64")
