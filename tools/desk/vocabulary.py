"""What the chips' registers, control bits and selects are called."""

REGISTERS = (
    "characters in a line, less one",
    "characters shown in a line",
    "HSYNC column",
    "sync widths",
    "rows in a frame, less one",
    "adjust lines",
    "rows shown",
    "VSYNC row",
    "modes",
    "lines in a row, less one",
    "cursor's first line, and blink",
    "cursor's last line",
    "start address, high",
    "start address, low",
    "cursor address, high",
    "cursor address, low",
    "pen latch, high",
    "pen latch, low",
)
REGISTER_NUMBERS = 32  # that five bits can name
LEFT_OUT = "left out here"  # R18 to R31
# Registers that are bits or parts of an address: their values are written in hex.
IN_HEX = {3, 8, 10, 12, 13, 14, 15, 16, 17}

CONTROL_GROUPS = {"V": "display mode", "F": "display offset", "P": "page", "R": "rate", "M": "memory size", "T": "map type"}

SELECTS = ("RAM", "ROM 0", "ROM 1", "ROM 2", "I/O 0", "I/O 1", "I/O 2", "no device")
TICKS = {8: "fast", 16: "slow"}


def register(number):
    """A register by its number, in words."""
    return REGISTERS[number] if number < len(REGISTERS) else LEFT_OUT


def control_bit(name):
    """A control bit by its name, in words."""
    return CONTROL_GROUPS[name[0]]


def in_hex(number, digits=4):
    """A number as the data sheets write hex."""
    return f"${number:0{digits}X}"


def register_value(number, value):
    """A byte as it is written for a register."""
    return in_hex(value, 2) if number in IN_HEX else str(value)
