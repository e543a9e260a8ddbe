"""The files that hold the statements of theorems, each held to the words that it had when it was last read.

Nothing but a theorem's own proof uses most parts of its statement. A part that is dropped or weakened there, with its part of the proof,
would go unnoticed unless a false version of that very part is among the must-fail edits, and few parts have one. So a statement's words
count: where they change, a reader judges them again, and then puts the new sum here.
"""
import hashlib

from checks import antt

# By their paths: the first digits of the sum of all words outside comments.
SUMS = {
    "crates/basics/specs/Lay.antt": "e745b6aac1967f9e",
    "crates/call_lists/specs/Lists.antt": "c8977b4e710028a5",
    "crates/control/specs/Write.antt": "86907988fb7a552a",
    "crates/controller/specs/Widths.antt": "498cbe1d3748fe80",
    "crates/decimal/specs/Decimal.antt": "eed3c7c6caeaf1ef",
    "crates/demand/specs/Demand.antt": "9343e32fc3c1d653",
    "crates/demand/specs/Latches.antt": "253a368aa6beb395",
    "crates/every_line/specs/Calls.antt": "f7fcb07b0bb4afcb",
    "crates/every_line/specs/Cuts.antt": "b4b4e3c04c2b370a",
    "crates/every_line/specs/Demand.antt": "bc74a67e482ef7d4",
    "crates/every_record/specs/Alone.antt": "ef9daa68927cc241",
    "crates/every_record/specs/Calls.antt": "b5aa35de0646e480",
    "crates/every_record/specs/Reads.antt": "15d39bbecd23d7b9",
    "crates/every_record/specs/Refusals.antt": "be023569421aeb51",
    "crates/every_replay/specs/Runs.antt": "0ff836cfa1d0ec5b",
    "crates/frames/specs/Calls.antt": "2878e425211611eb",
    "crates/frames/specs/Frames.antt": "62cbbc018bf8c05d",
    "crates/frames/specs/Places.antt": "d93791addc2f8acf",
    "crates/picture_total/specs/Picture.antt": "1dbf98b218c82766",
    "crates/raster/specs/Widths.antt": "ec331de9ef932de4",
    "crates/record/specs/Refusals.antt": "55c165e8100c05d4",
    "crates/refresh_and_pictures/specs/Picture.antt": "6c632a8e0c78c3a1",
    "crates/refresh_and_pictures/specs/Refresh.antt": "904d755483101d0d",
    "crates/replay/specs/Run.antt": "e4ca7e6356d5d256",
    "crates/serial_listing/specs/Printed.antt": "4d9868f216b00ea6",
    "crates/serial_text/specs/Turn.antt": "9f335e185db41161",
    "crates/setting/specs/Writes.antt": "53269a4c1eb12b58",
    "crates/settled/specs/Cases.antt": "955030da39ecba36",
    "crates/settled/specs/Premises.antt": "8e434744bce6de89",
}


def sum_of(text):
    """The sum of a file's words. Comments are whole lines that begin with `-- `, here or further in."""
    said = "\n".join("" if line.lstrip().startswith("-- ") else line for line in text.split("\n"))
    words = "\n".join(item.text for item in antt.items_of(antt.strict_text(said)))
    return hashlib.sha256(words.encode()).hexdigest()[:16]


def check(top, paths):
    """Yields what is wrong with the files that hold statements, named from the top."""
    for path in sorted(set(paths)):
        if not (top / path).is_file():
            continue  # said where the place is named
        try:
            there = sum_of((top / path).read_text())
        except antt.Unreadable as why:
            yield f"{path}: {why}"
            continue
        if path not in SUMS:
            yield f"{path}: it holds a statement; read it, and put its sum, {there}, into tools/checks/statements.py"
        elif there != SUMS[path]:
            yield f"{path}: a statement in it has changed; read it anew, and put its sum, {there}, into tools/checks/statements.py"
    for path in sorted(set(SUMS) - set(paths)):
        yield f"{path}: tools/checks/statements.py has its sum, and no theorem's statement is in it"
