"""Why a record or a file of settings was refused or a replay ended, and what to do about it."""
from records import GREATEST_FIELDS, KIND_NAMES, MOST_BATCH_BYTES, MOST_SETTINGS, RECORD_BYTES, SETTING_BYTES
from .settings import number_of

TOO_LONG = "too long"
EMPTY = "the batch is empty: it has no record"
FIELDS = ("hi", "lo", "data")
MOST_RECORDS = MOST_BATCH_BYTES // RECORD_BYTES

ADVICE = {
    1: "Kinds are 1 to 9. If the records behind it are refused too, a byte is missing or too many somewhere before.",
    2: "Mend the field that is named. If the records behind it are refused too, a byte is missing or too many somewhere before.",
    5: "Put a strike between the reset and the locate; a reset forgets all strikes.",
    6: "The latch is no position, though a cell may leave the same: the pen fired in a blanked part. The clock line before a good strike says "
       "'picture', and not 'outside the picture'. On the bench, see whether the pen picks up light from the border, or fires late.",
    7: "A register was written after the controller's reset, or there was none, and the scan is not where the registers as they stand would "
       "have it; R12 and R13, for one, count only from the next frame or reset on. Put the reset behind the setting, and locate before you "
       "write another register.",
    8: "The pen cannot tell these cells apart: the picture has more cells than addresses, or its rows share some, or it reaches the last two "
       "characters of the line, where a strike latches an address of the next line. Make the picture smaller, with R1 at most R0 - 1, or show "
       "the part that matters alone, and fire again.",
}

# Beside each cell that is located after registers were written, and what it means, once.
UNSURE = "not certain"
WHY_UNSURE = ("Registers were written after the controller's last reset, or it had none. This is the cell that fits the latch by the registers "
              "as they stand now. That it is where the pen was is certain only where none is written between reset and locate.")


def named_limit(most):
    """What a field may be, in words."""
    return "0" if most == 0 else f"0 or {most}" if most == 1 else f"0 to {most}"


def why_not_allowed(one):
    """What is wrong with the bytes of a record that is not whole, of no known kind, or has a field that is not allowed."""
    if len(one) < RECORD_BYTES:
        return f"{len(one)} of a record's {RECORD_BYTES} bytes"
    if one[0] not in KIND_NAMES:
        return f"{one[0]} is no kind"
    wrong = [f"{name} is {field} and has to be {named_limit(most)}"
             for name, field, most in zip(FIELDS, one[1:], GREATEST_FIELDS[one[0]]) if field > most]
    return f"{KIND_NAMES[one[0]]}: {', '.join(wrong)}"


def ending(number, rest, answered=0, refused=0):
    """What a listing's last line says; rest is what follows the last whole record. So many are answered, some of them with a refusal."""
    if number == 0 and not answered:
        return EMPTY
    if number == 0:
        return "every record was answered" + (f", {refused} with a refusal" if refused else "")
    if number == 3 and rest:
        return (f"the last bytes, {rest.hex(' ')}, are {len(rest)} of a record's {RECORD_BYTES}: the file was cut, or a byte is missing "
                "or too many somewhere before. All whole records are answered.")
    return "the replay ended before the batch did"


def too_long(length):
    """What `too long` says."""
    return (f"the batch has {length:,} bytes; at most {MOST_BATCH_BYTES:,} are taken, {MOST_RECORDS:,} records. Cut it at a place "
            "where you can begin each part with the setting: the chips start fresh in each run.")


def surprise(data, end):
    """What somebody has to know of a replay that ended otherwise than he may think; None where there is nothing."""
    if end == TOO_LONG:
        return too_long(len(data))
    whole = len(data) // RECORD_BYTES
    return surprise_at_end(end, data[whole * RECORD_BYTES:], whole)


def surprise_at_end(number, rest, answered):
    """The same by how it ended, what follows the last whole record, and how many there are."""
    if not answered and not rest:
        return EMPTY
    return ending(number, rest) if number == 3 else None


def not_settings(length):
    """Why so many bytes are not 1 to 64 whole settings, and what to do; nothing where they are."""
    whole, rest = divmod(length, SETTING_BYTES)
    said = []
    if not length:
        said.append(f"there is no setting. Begin one with the word 'setting', or give {SETTING_BYTES} bytes for each, "
                    f"R0 to R{SETTING_BYTES - 1}.")
    if rest:
        said.append(f"the last setting is cut: it has {rest} of a setting's {SETTING_BYTES} bytes, "
                    f"behind {number_of(whole, 'whole one', 'whole ones')}. The file was cut, or a byte is missing or too many somewhere before.")
    if whole > MOST_SETTINGS:
        said.append(f"there are {whole:,} settings; at most {MOST_SETTINGS} are counted at once. "
                    "Cut the file, and count each part by itself: it has totals of its own.")
    return " ".join(said)
