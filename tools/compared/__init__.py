"""The programs under comparison: each is proved, and the second program does the same in its part.

A further one is a module here with one object, which is named in PROGRAMS, and among the REPLAYS where it replays records. The sorts
of batches that it reads have their shares in tools/batches, under that object."""
from .counts import COUNTS
from .cuts import CUTS
from .listing import LISTING
from .program import NotReadable
from .rooms import ROOMS
from .serial import SERIAL

REPLAYS = (LISTING, ROOMS, SERIAL)  # of records; what these print has endings
PROGRAMS = (*REPLAYS, COUNTS, CUTS)
NAMES = tuple(program.name for program in PROGRAMS)
