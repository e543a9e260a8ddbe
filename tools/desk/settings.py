"""What a byte means to the register that it is written to, in words."""
from records import KEPT_BITS
from .vocabulary import in_hex, register_value

LAST_WRITTEN = 15
MODES = ((0x04, "addresses by row and column"), (0x10, "display enable delayed"), (0x20, "cursor delayed"))
UNUSED_MODES = (0, 1, 3, 6, 7)  # bits of R8, by number
BLINKS = ("steady", "never shown", "blinking, 8 frames on and 8 off", "blinking, 16 frames on and 16 off")


def number_of(number, one, many):
    """A number of things."""
    return f"{number:,} {one if number == 1 else many}"


def widths(value):
    """R3."""
    return (f"HSYNC {number_of(value % 16, 'character', 'characters')} long, "
            f"VSYNC {number_of(value // 16 or 16, 'line', 'lines')} long")


def modes(value):
    """R8."""
    words = ", ".join(name for bit, name in MODES if value & bit) or "straight binary addresses, no delay"
    others = [str(bit) for bit in UNUSED_MODES if value >> bit & 1]
    return f"{words}; left out here: bit {' and bit '.join(others)}" if others else words


def cursor(value):
    """R10."""
    return f"cursor from line {value % 32} on, {BLINKS[value // 32]}"


MEANINGS = (
    lambda value: f"{number_of(value + 1, 'character', 'characters')} in a line",
    lambda value: f"{number_of(value, 'character', 'characters')} shown in a line",
    lambda value: f"HSYNC begins at column {value}",
    widths,
    lambda value: f"{number_of(value + 1, 'row', 'rows')} in a frame",
    lambda value: number_of(value, "adjust line", "adjust lines"),
    lambda value: f"{number_of(value, 'row', 'rows')} shown",
    lambda value: f"VSYNC begins with row {value}",
    modes,
    lambda value: f"{number_of(value + 1, 'line', 'lines')} in a row",
    cursor,
    lambda value: f"cursor to line {value}",
    lambda value: f"start address {in_hex(value, 2)}xx",
    lambda value: f"start address $xx{value:02X}",
    lambda value: f"cursor address {in_hex(value, 2)}xx",
    lambda value: f"cursor address $xx{value:02X}",
)


def kept(number, value):
    """What a register that can be written keeps of a byte."""
    return value & KEPT_BITS.get(number, 255)


def meaning(number, value):
    """What a byte written to a register means there."""
    if number > LAST_WRITTEN:
        return "cannot be written, so nothing changes"
    held = kept(number, value)
    words = MEANINGS[number](held)
    return words if held == value else f"{kept(number, 255).bit_length()} bits are kept, {register_value(number, held)}: {words}"
