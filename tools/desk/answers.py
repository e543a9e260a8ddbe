"""Answers in words."""
from .vocabulary import SELECTS, TICKS, in_hex

PICTURE = 0x01
OUTPUTS = ((0x01, "picture"), (0x02, "display enable"), (0x04, "cursor"), (0x08, "HSYNC"), (0x10, "VSYNC"))
STATUS = ((0x40, "L (a strike not read yet)"), (0x20, "V (the rows shown are over)"))
RAM, BARRED, CONTROL_WRITE = 0x01, 0x02, 0x04
EDGES = ("no edge", "HS falls", "HS rises", "HS rises with preload")


def named(flags, names):
    """The names of the flags that are set."""
    return [name for flag, name in names if flags & flag]


def cell(bank, row, column):
    """A memory cell."""
    return f"bank {bank}, row {in_hex(row, 2)}, column {in_hex(column, 2)}"


def status(value):
    """What a status read says."""
    return f"{in_hex(value, 2)}, {', '.join(named(value, STATUS)) or 'neither L nor V'}"


def read(record, body):
    """Kind 2."""
    driven, value = body[:2]
    if not driven:
        return "not driven, cannot be read back"
    return in_hex(value, 2) if record[2] else status(value)


def clocked(_record, body):
    """Kind 3."""
    high, low, line, flags = body[:4]
    outputs = named(flags, OUTPUTS)
    if not flags & PICTURE:
        outputs.insert(0, "outside the picture")
    return f"MA {in_hex(256 * high + low)}, RA {line}, {', '.join(outputs)}"


def struck(_record, body):
    """Kind 4."""
    high, low, inside = body[:3]
    return f"latch {in_hex(256 * high + low)}, {'in' if inside else 'outside'} the picture"


def device(select, flags):
    """What a select is for."""
    if select != 7:
        return SELECTS[select] if select < len(SELECTS) else "unknown"
    return "RAM write" if flags & RAM else "control bit" if flags & CONTROL_WRITE else SELECTS[7]


def cycled(_record, body):
    """Kind 6."""
    select, ticks, flags, bank, row, column = body
    parts = [f"select {select} ({device(select, flags)})", f"{ticks} crystal ticks ({TICKS.get(ticks, 'unknown')})"]
    if flags & RAM:
        parts.append(cell(bank, row, column))
    if flags & BARRED:
        parts.append("barred pair")
    return ", ".join(parts)


def fetched(_record, body):
    """Kind 7."""
    high, low, bank, row, column, access = body
    return (f"display address {in_hex(256 * high + low)}, {cell(bank, row, column)}, "
            f"{'with' if access else 'without'} RAM access")


def levelled(_record, body):
    """Kind 8."""
    edge, first, count = body[:3]
    words = EDGES[edge] if edge < len(EDGES) else "unknown edge"
    if count:
        return f"{words}, {count} rows refreshed from row {in_hex(first, 2)} on"
    return f"{words}, no refresh" if edge == 1 else words


def located(_record, body):
    """Kind 9."""
    return f"row {body[0]}, column {body[1]}"


BY_KIND = {2: read, 3: clocked, 4: struck, 6: cycled, 7: fetched, 8: levelled, 9: located}


def answer_words(record, answer):
    """What an answer that is not a refusal says beyond 'done', or nothing."""
    says = BY_KIND.get(answer[0])
    return says(record, answer[2:]) if says else ""
