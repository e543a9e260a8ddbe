"""What the inputs at a program's edges hold."""
import random

# One record of each kind and some that are refused.
GOOD_BATCH = bytes.fromhex(
    "01000001 01000102 01000006 01000101 05000000 03000100 04000000 09000000 02000000 06a00001"
    "07000010 08000001 08000101 0affffff 04000001 030000ff")
# Small frames: setting A of the settled cases, all zeros, and one with late pins, a cursor, both syncs and addresses that wrap.
GOOD_SETTINGS = bytes.fromhex(
    "03020000010102000001000000000000 00000000000000000000000000000000 06040534030203023002410f3ffb0001")
# Calls on a line: a record cut into three and one, without room for its answer and with it, two records of which one has room, the other
# one again, the beginning of a third, a closing, and calls after it.
GOOD_CALLS = bytes.fromhex(
    "0100000003040000 010007000100 010008000100 010008000803000100 09000000 010010000409000000 01000900020600 02 010002000104 02")


def repeated(good, length):
    """A good input over and over, as far as a length goes."""
    return (good * (length // len(good) + 1))[:length]


def contents(length, what, good):
    """Inputs of one length: zeros, a good one over and over, with words for it, and bytes without any plan; of no length one alone."""
    plan = random.Random(length)
    yield "zeros", bytes(length)
    if length:
        yield what, repeated(good, length)
        yield "any bytes", bytes(plan.randrange(256) for _ in range(length))
