"""The hosts in C: programs that know the proved code by its header alone, linked with the proved archive."""
from commands import TOP
from kit import compile_c, link

SOURCES = TOP / "tools" / "linked"
ROOM = TOP / "target" / "linked"  # for what is made


def build_host(kit, compiler, name, *objects):
    """One host, with other objects linked to it. Gives the program."""
    ROOM.mkdir(parents=True, exist_ok=True)
    program, host = ROOM / name, ROOM / f"{name}.o"
    compile_c(compiler, SOURCES / f"{name}.c", host)
    link(kit, program, [host, *objects])
    return program
