"""Changes to the second program, each of which breaks a rule: what the comparison has to see."""
from . import controller, counts, line, multiplexer, records

CHANGES = records.CHANGES + controller.CHANGES + multiplexer.CHANGES + counts.CHANGES + line.CHANGES
