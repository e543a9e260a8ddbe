"""The nine kinds of record, each by a name, what a batch of records or of settings may hold, and the numbers of refusals and endings."""

RECORD_BYTES = 4
MOST_BATCH_BYTES = 4096
KIND_NAMES = {
    1: "controller write",
    2: "controller read",
    3: "character clocks",
    4: "pen strike",
    5: "reset",
    6: "bus cycle",
    7: "display fetches",
    8: "HS and DA0 levels",
    9: "locate",
}
# The greatest values that are allowed in the three fields of each kind.
GREATEST_FIELDS = {
    1: (0, 1, 255),
    2: (0, 1, 0),
    3: (255, 255, 0),
    4: (0, 0, 0),
    5: (0, 1, 0),
    6: (255, 255, 1),
    7: (255, 255, 0),
    8: (0, 1, 1),
    9: (0, 0, 0),
}
ANSWER_BYTES = 8
REFUSAL_NAMES = {
    0: "done",
    1: "there is no such kind",
    2: "a field has a value that the kind does not allow",
    3: "the last bytes are no whole record",
    4: "the output has no room for another answer",
    5: "the pen has not fired since the controller was reset",
    6: "the strike was outside the picture",
    7: "no cell of the picture fits the latch",
    8: "two or more cells of the picture fit the latch",
}
ENDINGS = (0, 3, 4)
# The endings of a call on the serial line, which takes a cut or closes the line.
CALL_ENDING_NAMES = {
    0: "done",
    3: "the line is closed with one to three bytes held",
    4: REFUSAL_NAMES[4],
    12: "the line was closed before",
}
# A setting has a byte for each register R0 to R15, and a report on settings a row for each and one of totals.
SETTING_BYTES = 16
MOST_SETTINGS = 64
ROW_NUMBERS = 7
# The refusals of a whole report; no record has one of them.
REPORT_REFUSAL_NAMES = {
    0: "done",
    10: "the bytes are not 1 to 64 whole settings",
    11: "fewer places than the report needs",
}
# The bits that the narrower registers keep; the others keep all eight.
KEPT_BITS = {4: 127, 5: 31, 6: 127, 7: 127, 9: 31, 10: 127, 11: 31, 12: 63, 14: 63}
# The multiplexer's control bits in their order; each has two addresses from CONTROL on.
CONTROL = 0xFFC0
CONTROL_BITS = ("V0", "V1", "V2", "F0", "F1", "F2", "F3", "F4", "F5", "F6", "P", "R0", "R1", "M0", "M1", "TY")


def record(kind, high=0, low=0, data=0):
    """Four bytes: the kind and the three fields."""
    return bytes((kind, high, low, data))


def counted(kind, number, data=0):
    """A record whose middle bytes are one number, high byte first."""
    return record(kind, number // 256, number % 256, data)


def select(register):
    """Names a register in the controller's address register."""
    return record(1, 0, 0, register)


def write(value):
    """Writes the register that is named."""
    return record(1, 0, 1, value)


def read():
    """Reads the register that is named."""
    return record(2, 0, 1)


def put(register, value):
    """Names a register and writes it: two records."""
    return select(register) + write(value)


def get(register):
    """Names a register and reads it: two records."""
    return select(register) + read()


def status():
    """Reads the controller's status."""
    return record(2)


def clocks(number):
    """Lets that many character times pass."""
    return counted(3, number)


def strike():
    """The pen fires."""
    return record(4)


def reset_controller():
    """Resets the controller; its registers stay."""
    return record(5)


def reset_multiplexer():
    """Resets the multiplexer, control bits too."""
    return record(5, 0, 1)


def bus(address, read):
    """One bus cycle of the processor; read is 1 or 0."""
    return counted(6, address, read)


def control(bit, value):
    """The bus write that sets or clears one control bit, by its place."""
    return bus(CONTROL + 2 * bit + value, 0)


def fetches(number):
    """That many display fetches."""
    return counted(7, number)


def levels(hs, da0):
    """Sets the HS and DA0 levels."""
    return record(8, 0, hs, da0)


def locate():
    """Asks for the cell of the last strike."""
    return record(9)


def records_of(batch):
    """The records of a batch, four bytes each; the last may be shorter."""
    return [batch[at:at + RECORD_BYTES] for at in range(0, len(batch), RECORD_BYTES)]


def records_before(place):
    """How many records begin before a place of a batch."""
    return -(-place // RECORD_BYTES)


def settings_of(given):
    """The settings of an input, sixteen bytes each; the last may be shorter."""
    return [given[at:at + SETTING_BYTES] for at in range(0, len(given), SETTING_BYTES)]


def are_settings(given):
    """Whether an input is as many whole settings as a report takes."""
    return 1 <= len(given) // SETTING_BYTES <= MOST_SETTINGS and len(given) % SETTING_BYTES == 0


def is_allowed(one):
    """Whether a record is whole, of a known kind, and has fields that its kind allows."""
    most = GREATEST_FIELDS.get(one[0]) if len(one) == RECORD_BYTES else None
    return most is not None and all(field <= limit for field, limit in zip(one[1:], most))


def joined(parts):
    """The parts one after the other, cut at the last whole record that a batch has room for."""
    return b"".join(parts)[:MOST_BATCH_BYTES]
