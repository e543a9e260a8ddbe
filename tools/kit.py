"""The machine, the toolchain's kit on it, and how a C program for x86-64 is built over the proved archive and run."""
import collections
import os
import pathlib
import platform
import shutil

from commands import TOP, CannotRun, attempt, need, quietly
from proving import ARCHIVE

DIRECT = "x86_64"  # the kind of machine that proved code is compiled for
TARGET = "x86_64-unknown-linux-gnu"
INCLUDE = TOP / "include"
LOADER = "lib/ld-linux-x86-64.so.2"  # in a toolchain, beside the C library
LINKER = "rattle-link"
EMULATOR = "qemu-x86_64"

# emulator: None on the kind of machine that runs proved code directly
Kit = collections.namedtuple("Kit", "machine toolchain linker emulator")


def first_of(folders, name):
    """The first of some folders that has a thing of this name."""
    return next((folder for folder in folders if (folder / name).exists()), None)


def kit_above(guide):
    """The kit that a guide of it belongs to: the nearest folder above that has the toolchain's programs."""
    return next((folder for folder in guide.parents if (folder / "bin" / "rt").exists()), None)


def find_kit():
    """The kit by the guide that rt names. What is for one kind of machine stands in it plainly, or below on/MACHINE."""
    need("rt")
    well, said = attempt(["rt", "doc"])
    guide = pathlib.Path(said.strip())
    if not well or not guide.is_absolute():
        raise CannotRun(f"'rt doc' does not say where the toolchain's kit is, but: {said.strip() or 'nothing'}")
    home = kit_above(guide) or guide.parent
    machine = platform.machine()
    homes = [home / "on" / machine, home]
    toolchain = first_of([place / "toolchain" for place in homes], LOADER)
    linker = first_of([place / "bin" for place in homes], LINKER)
    if toolchain is None or linker is None:
        raise CannotRun(f"the kit at {home} has nothing for this kind of machine, {machine}: no {LOADER if toolchain is None else LINKER}")
    return Kit(machine, toolchain, linker / LINKER, None if machine == DIRECT else emulator_of(homes, machine))


def emulator_of(homes, machine):
    """The emulator: where the kit has its programs, else anywhere in the kit, else on the PATH."""
    places = [place / folder for place in homes for folder in ("toolchain/bin", "bin")]
    found = first_of(places, EMULATOR)
    wanted = [found / EMULATOR] if found else sorted(path for home in homes for path in home.rglob(EMULATOR))
    wanted += [pathlib.Path(path) for path in [shutil.which(EMULATOR)] if path]
    emulator = next((path for path in wanted if path.is_file() and os.access(path, os.X_OK)), None)
    if emulator is None:
        raise CannotRun(f"the kit at {homes[-1]} has no emulator for {machine}, and proved code is for {DIRECT}")
    return emulator


def need_archive(tool):
    """Sees that the archive is there; tool is what makes it."""
    if not ARCHIVE.is_file():
        raise CannotRun(f"{ARCHIVE.relative_to(TOP)} is missing; run {tool} without --no-build")


def c_compiler(kit):
    """The words of a C compiler for x86-64 at full optimisation: gcc there, the kit's clang elsewhere."""
    if kit.emulator:
        return [kit.toolchain / "bin" / "clang", f"--target={TARGET}", "-O3", "-fPIC"]
    need("gcc")
    return ["gcc", "-O3", "-fPIC"]


def compile_c(compiler, source, out):
    """One C file."""
    quietly(compiler + ["-std=c99", "-Wall", "-Wextra", "-I", INCLUDE, "-c", source, "-o", out])


def link(kit, program, objects, archive=ARCHIVE):
    """The objects and the proved archive as one program for x86-64."""
    quietly([kit.linker, "--target", TARGET, "--toolchain", kit.toolchain, "-o", program, *objects, archive])


def running(kit, program):
    """The words that run an x86-64 program under the kit's loader and C library."""
    loader = kit.toolchain / LOADER
    words = [loader, "--library-path", loader.parent, program]
    return [str(word) for word in ([kit.emulator] if kit.emulator else []) + words]


def environment():
    """The environment without settings of the emulator."""
    return {name: value for name, value in os.environ.items() if not name.startswith("QEMU_")}
