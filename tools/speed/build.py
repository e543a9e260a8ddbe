"""Builds the measured program: the proved archive, the same rules in Rust, and the harness over both."""
import re

from commands import TOP, CannotRun, attempt, need
from kit import TARGET, c_compiler, compile_c, link, need_archive
from proving import ARCHIVE, prove_archive
from .pages import on_pages
from .progress import WHO, say

SOURCES = TOP / "tools" / "speed"
ROOM = TOP / "target" / "bench"
RUST_WORDS = ["rustc", "--edition", "2021", "--crate-type", "lib", "-C", "opt-level=3", "-C", "panic=abort",
              "-C", "codegen-units=1", "-C", "relocation-model=pic"]


def version_of(compiler):
    """The first line of what a compiler says of itself."""
    well, said = attempt([compiler, "--version"])
    return said.splitlines()[0].strip() if well and said else str(compiler)


def retargeted(text):
    """LLVM's text of the Rust side, for x86-64 in place of the machine that rustc took it for.

    Sound for plain.rs alone: only pointers and 32-bit numbers cross its calls, and its structs of
    bytes and 16-bit numbers are laid out alike on both kinds of machine."""
    text = re.sub(r"^target (datalayout|triple) = .*\n", "", text, flags=re.MULTILINE)
    text = re.sub(r'"target-cpu"="[^"]*"', '"target-cpu"="x86-64"', text)
    return re.sub(r' "(target-features|tune-cpu|frame-pointer)"="[^"]*"', "", text)


def last_error(said):
    """The line of a compiler's output that names its trouble."""
    errors = [line for line in said.splitlines() if "error" in line]
    return (errors or said.splitlines() or ["it said nothing"])[0].strip()


def rust_through_clang(kit, source, out):
    """The Rust side where rustc has no library for x86-64: rustc writes it before optimisation, for
    this machine, and the kit's clang optimises and compiles it for x86-64."""
    text = ROOM / "plain.ll"
    well, said = attempt(RUST_WORDS + ["-C", "no-prepopulate-passes", "--emit", "llvm-ir", "-o", text, source])
    if not well:
        raise CannotRun(f"rustc refused {source.name}: {last_error(said)}")
    text.write_text(retargeted(text.read_text()))
    clang = kit.toolchain / "bin" / "clang"
    well, said = attempt([clang, f"--target={TARGET}", "-O3", "-fPIC", "-ffunction-sections", "-Wno-override-module",
                          "-x", "ir", "-c", text, "-o", out])
    if not well:
        raise CannotRun(f"the kit's clang does not take what {version_of('rustc')} writes: {last_error(said)}")
    return f"{version_of('rustc')}, opt-level 3, then the kit's {version_of(clang)} -O3 to x86-64"


def compile_rust(kit, out):
    """The Rust side. Gives how it was compiled."""
    source = SOURCES / "plain.rs"
    well, said = attempt(RUST_WORDS + ["--target", TARGET, "--emit", "obj", "-o", out, source])
    if well:
        return f"{version_of('rustc')}, opt-level 3"
    if not kit.emulator:
        raise CannotRun(f"rustc refused {source.name}: {last_error(said)}")
    return rust_through_clang(kit, source, out)


def link_measured(kit, name, archive):
    """The measured program over an archive, under a name, with each function on pages of its own."""
    program, paged = ROOM / name, ROOM / f"{name}.a"
    rust = ROOM / "plain-on-pages.o"
    rust.write_bytes(on_pages((ROOM / "plain.o").read_bytes()))
    paged.write_bytes(on_pages(archive.read_bytes()))
    link(kit, program, [ROOM / "harness.o", rust], paged)
    return program


def build(kit, prove):
    """All of it, what takes long as late as may be. Gives the program, and how its Rust side was compiled."""
    need("rustc")
    say("compiling the Rust side and the harness")
    ROOM.mkdir(parents=True, exist_ok=True)
    made = compile_rust(kit, ROOM / "plain.o")
    compile_c(c_compiler(kit), SOURCES / "harness.c", ROOM / "harness.o")
    if prove:
        prove_archive(WHO)
    need_archive("tools/bench")
    return link_measured(kit, "now", ARCHIVE), made
