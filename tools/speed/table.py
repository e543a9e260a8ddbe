"""The table as text."""
from .programs import CLOCKS, RECORDS

# the harness's name of each row, and what the table calls it
ROWS = [
    ("clock-63", "a character time, R0 63 (1)"),
    ("clock-255", "a character time, R0 255 (1)"),
    ("clock-1", "a character time, R0 1 (1)"),
    ("clock-0", "a character time, all registers 0"),
    ("locate", "locating a strike in the largest picture (2)"),
    ("locate-by-rows", "the same, by row and column (2)"),
    ("locate-full", "the same, up to the line's end (2)"),
    ("locate-screen", "locating a strike on a text screen (5)"),
    ("fetch-000", "a display fetch, mode 000"),
    ("fetch-001", "a display fetch, mode 001"),
    ("count-largest", "a character time counted, largest frame (4)"),
    ("count-screen", "a character time counted, text screen (5)"),
]
WHOLE = "whole listing program, a character time (3)"
FORM = "{:<46}{:>12}{:>12}{:>14}"


def digits(number):
    """A number to three digits or to the unit."""
    return f"{number:,.0f}" if number >= 100 else f"{number:.3g}"


def ratio(other, ours):
    """How many times as long the other side takes."""
    return f"{other / ours:,.0f}" if other >= 100 * ours else f"{other / ours:.2f}"


def row_line(what, proved, rust):
    """One row of measured times, in nanoseconds."""
    return FORM.format(what, digits(proved), digits(rust), ratio(rust, proved))


def whole_lines(whole, kit):
    """The row of the two whole programs, and what there is to say of it."""
    if whole.why:
        return [f"{WHOLE:<46}  {whole.why}"], []
    each = RECORDS * CLOCKS / 1e9
    proved, second = whole.proved / each, whole.second / each
    beside = ["-", "-"] if kit.emulator else [digits(second), ratio(second, proved)]
    remarks = [f"    whole times: proved {whole.proved * 1e3:,.1f} ms, second program {whole.second * 1e3:,.1f} ms."]
    if kit.emulator:
        remarks.append("    These two are not to be compared: the proved program ran under the emulator, and the second one on the")
        remarks.append("    machine itself, since Rust's library, which it needs, is not here for x86-64.")
    return [FORM.format(WHOLE, digits(proved), *beside)], remarks


def machine_lines(kit):
    """The kind of machine, and how all was run."""
    if not kit.emulator:
        return [f"machine: {kit.machine}. Both sides are x86-64 code in one process, run directly."]
    return [
        f"machine: {kit.machine}. Proved code is x86-64 code, so both sides were compiled for x86-64 and run, in one",
        "process, UNDER THE TOOLCHAIN'S EMULATOR. The times say nothing by themselves, and the ratios a little.",
    ]


def notes(made):
    """How each side was compiled, and what the table means."""
    return [
        "proved: rt lib in crates/exports_c (over crates/exports and the proved crates)",
        f"Rust: {made}",
        "Times in nanoseconds, best of several. A ratio above 1: the proved code is faster than Rust.",
        "Both sides came to the same results before they were timed.",
        "(1) R1 40, R2 50, R3 28 hex, R4 38, R6 25, R7 30, R9 7, others 0",
        "(2) R0 255, R1 255, R4 127, R6 127, R9 31, others 0; by row and column R8 4; up to the line's end R0 254; the Rust side strikes",
        "    all 127 x 255 cells, each on its 32 lines",
        f"(3) a batch of {RECORDS:,} records of {CLOCKS:,} clocks, all registers 0; beside it, as Rust, the second program",
        "(4) a report of 64 settings of the largest frame, 67,616,768 character times",
        "(5) 40 columns and 25 rows of 8 lines, R0 63: one strike, or a report of 64 such settings",
    ]


def before_table(before, now):
    """The proved code of an earlier archive beside that of this one, by the times of each."""
    lines = [FORM.format("", "before", "now", "before/now"), FORM.format("the proved code", "ns each", "ns each", "ratio")]
    lines.append("-" * len(lines[0]))
    for name, what in ROWS:
        (earlier, _), (ours, _) = before[name], now[name]
        lines.append(FORM.format(what, digits(earlier), digits(ours), ratio(earlier, ours)))
    return "\n".join(lines + ["-" * len(lines[0]), "Both ran in turn. A ratio above 1: it is faster now than before."])


def table(kit, made, times, whole):
    """The whole text; made tells how the Rust side was compiled."""
    heads = FORM.format("", "proved", "Rust", "Rust/proved")
    units = FORM.format("what", "ns each", "ns each", "ratio")
    lines = [heads, units, "-" * len(units)]
    for name, what in ROWS:
        lines.append(row_line(what, *times[name]))
    rows, remarks = whole_lines(whole, kit)
    lines += rows + ["-" * len(units)] + machine_lines(kit) + notes(made) + remarks
    return "\n".join(lines)
