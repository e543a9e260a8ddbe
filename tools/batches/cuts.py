"""Lists of calls on a serial line: batches in cuts of any length, with room for their answers and without, closings, and bytes that are
no list. A list is made from the random numbers that it is given and from nothing else."""

from compared.calls import CLOSING, HEAD_BYTES, MOST_CALLS_BYTES, calls_of, in_call
from compared.rooms import MOST_ROOM
from records import ANSWER_BYTES, RECORD_BYTES
from . import mixed

MOST_HANDED = 1500  # bytes of a batch in most lists, so that the closing behind it has a place
GREAT_ROOMS = (MOST_ROOM - 1, MOST_ROOM, MOST_ROOM, MOST_ROOM + 1, 65535)


def some_batch(rng, most=MOST_HANDED):
    """A batch of at most so many bytes, good, damaged or cut short."""
    whole = rng.choice((mixed.some_good_batch, mixed.damaged, mixed.cut_short))(rng)
    return whole[:rng.randint(most // 4, most)]


def cut_length(rng):
    """The length of a cut: none, less than a record, about one, a few or many."""
    return rng.choice((0, 1, 1, 2, 3, 4, 5, rng.randint(6, 40), rng.randint(41, 400)))


def needed_room(held, length):
    """The output bytes that the answers to a cut take, with so many bytes held before it."""
    return ANSWER_BYTES * ((held + length) // RECORD_BYTES)


def enough_room(rng, need):
    """Room for all answers: just that, or some more."""
    return need + rng.choice((0, 0, 1, 7, 8, rng.randrange(60)))


def too_little_room(rng, need):
    """Room that lacks a byte, an answer, any number of them, or all; where none is needed, less than an answer has."""
    if not need:
        return rng.randrange(ANSWER_BYTES)
    return rng.choice((0, ANSWER_BYTES - 1, need - 1, need - ANSWER_BYTES, rng.randrange(need)))


def after_call(held, room, length):
    """How a call on an open line goes by its numbers alone: how many bytes of its cut it takes, and how many are held after it."""
    answers = room // ANSWER_BYTES
    if answers >= (held + length) // RECORD_BYTES:
        return length, (held + length) % RECORD_BYTES
    return (RECORD_BYTES * answers - held, 0) if answers else (0, held)


def handed_over(rng, batch, short_of_ten, some_length):
    """The calls that hand a batch over, cut by cut. So many of ten have too little room, and what they leave is handed over again."""
    calls, at, held = [], 0, 0
    while at < len(batch):
        cut = batch[at:at + some_length(rng)]
        some_room = too_little_room if rng.randrange(10) < short_of_ten else enough_room
        room = some_room(rng, needed_room(held, len(cut)))
        calls.append(in_call(room, cut))
        taken, held = after_call(held, room, len(cut))
        at += taken
    return calls


def listed(calls, last=b""):
    """A list of as many of the calls as have a place in one before the last, and of that."""
    made = b""
    for call in calls:
        if len(made + call + last) > MOST_CALLS_BYTES:
            break
        made += call
    return made + last


def cuts_with_room(rng):
    """A batch in cuts that all have room: the answers are those of its replay."""
    return listed(handed_over(rng, some_batch(rng), 0, cut_length), CLOSING)


def cuts_handed_again(rng):
    """A batch in cuts of which many have too little room, and what these leave handed over again until it is taken: the same answers."""
    return listed(handed_over(rng, some_batch(rng), 6, cut_length), CLOSING)


def cuts_let_go(rng):
    """Cuts of which some have too little room and are let go, and some are handed over twice; at times the line is left open."""
    batch, calls, at = some_batch(rng), [], 0
    while at < len(batch):
        cut = batch[at:at + cut_length(rng)]
        some_room = rng.choice((too_little_room, enough_room))
        call = in_call(some_room(rng, needed_room(rng.randrange(RECORD_BYTES), len(cut))), cut)
        calls += [call] * rng.choice((1, 1, 1, 2))
        at += len(cut)
    return listed(calls, rng.choice((b"", CLOSING)))


def one_byte_or_none(rng):
    """The length of a cut that has a byte, or at times none."""
    return rng.choice((0, 1, 1, 1))


def byte_by_byte(rng):
    """A batch of some records a byte at a time, and cuts of none between them: at most three bytes are ever held."""
    return listed(handed_over(rng, some_batch(rng, 400), 3, one_byte_or_none), CLOSING)


def calls_after_closing(rng):
    """A line closed before all of a batch is handed over, at times with bytes held, and then cuts with room and without, empty ones too,
    and closings."""
    early = handed_over(rng, some_batch(rng, 300), 4, cut_length)
    late = handed_over(rng, some_batch(rng, 300), 4, cut_length)
    late += [CLOSING] * rng.randint(1, 4) + [in_call(room, b"") for room in (0, 7, 8, 20)]
    rng.shuffle(late)
    return listed([*early[:rng.randint(0, len(early))], CLOSING, *late])


def greatest_rooms(rng):
    """Long cuts with as much room as there is, a byte less, and more than that."""
    cuts = [mixed.some_good_batch(rng)[:rng.randint(0, 1200)] for _ in range(rng.randint(1, 4))]
    return listed([in_call(rng.choice(GREAT_ROOMS), cut) for cut in cuts], CLOSING)


def longest_lists(rng):
    """As many bytes as a list may have: in one cut, or in several calls and a last cut that fills it up."""
    calls = rng.choice(([], handed_over(rng, some_batch(rng), 3, cut_length)))
    before = listed(calls, bytes(HEAD_BYTES))[:-HEAD_BYTES]
    cut = mixed.of_length(rng, MOST_CALLS_BYTES - len(before) - HEAD_BYTES)
    return before + in_call(rng.choice((MOST_ROOM, rng.randrange(MOST_ROOM))), cut)


def no_calls(_rng):
    """No byte at all: a list of no calls."""
    return b""


def some_calls(rng):
    """A few calls of a good list, one at least."""
    return [call.written for call in calls_of(cuts_handed_again(rng))][:rng.randint(1, 60)]


def strange_byte(rng):
    """A byte that no call begins with."""
    return bytes((rng.choice((0, 3, 255, rng.randrange(3, 256))),))


def bytes_between_calls(rng):
    """A list with a byte between two calls, before them or behind them, that is none itself: no call."""
    calls = some_calls(rng)
    calls.insert(rng.randint(0, len(calls)), strange_byte(rng))
    return b"".join(calls)


def calls_of_no_kind(rng):
    """A list of which one call begins with another byte: no call."""
    calls = some_calls(rng)
    place = rng.randrange(len(calls))
    calls[place] = strange_byte(rng) + calls[place][1:]
    return b"".join(calls)


def heads_broken_off(rng):
    """A list with a last call that lacks some of its head, or that has its first byte alone: no call."""
    last = in_call(rng.randrange(40), b"")
    return b"".join(some_calls(rng)) + last[:rng.choice((1, rng.randrange(1, HEAD_BYTES)))]


def cuts_broken_off(rng):
    """A list with a last cut that lacks a byte, or more of them, or all: no call."""
    cut = mixed.some_good_batch(rng)[:rng.randint(1, 30)]
    last = in_call(rng.randrange(40), cut)
    return b"".join(some_calls(rng)) + last[:-rng.choice((1, 1, rng.randint(1, len(cut)), len(cut)))]


def lists_too_long(rng):
    """Calls of more bytes than a list may have: no call, though each is one."""
    over = rng.choice((1, 1, 2, 5, rng.randint(3, 5000)))
    return longest_lists(rng) + CLOSING * over
