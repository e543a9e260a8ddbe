"""The commands of the desk program. A further one is a module with a COMMAND, named in the tuple below."""
from . import cases, counts, cuts, explain, listing, rooms, serial, written

COMMANDS = (listing.COMMAND, explain.COMMAND, *written.COMMANDS, rooms.COMMAND, serial.COMMAND, cuts.COMMAND, counts.COMMAND, cases.COMMAND)
