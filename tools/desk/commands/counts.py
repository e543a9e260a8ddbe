"""What a frame does, in numbers, for each setting of a file."""
from compared import COUNTS
from records import MOST_SETTINGS, SETTING_BYTES
from ..counting import COLUMNS, rows_of, table, why_refused
from ..files import read_settings
from ..proved import printed
from ..sheets import SHAPES, bytes_of
from ..terminal import Paper, tell
from .command import ANY_OTHER_FILE, Command, add_file, in_columns

ABOUT = f"""\
Counts what a frame does, for each of 1 to {MOST_SETTINGS} settings: the controller gets the
registers, is reset, and runs through one whole frame. Prints a line of numbers
for each setting and a line of totals.
"""
MORE = f"""\
FILE has settings: in words (.settings), as commented hex (.hex), {2 * SETTING_BYTES} digits for
each, or as bytes (.bin), {SETTING_BYTES} for each.
{ANY_OTHER_FILE}
In words '#' begins a comment, and ';' stands between statements on one line.
Numbers are decimal, or hex with '$'.

{in_columns(SHAPES)}

A file without the word 'setting' is one setting without a name, and so is what
stands before the first such word.

The first five numbers are character times:

{in_columns(COLUMNS, 11)}

The frame is the first one after the reset: field 0, in which a blinking cursor
is shown. Display enable and cursor are counted at the pins. Where R8 delays
one, it is low at the frame's first character, and what the last character has
is seen in the next frame only. Each MA is compared with the next one, the last
with the next frame's first. The total of the last column is the greatest.

Exit status: 0 well, and where the settings are refused, which is an answer;
1 the program cannot be built or run; 2 the input or the command line is wrong,
and nothing was run.
"""


def add_arguments(parser):
    """The settings, and how the numbers are to be shown."""
    add_file(parser, "the settings")
    parser.add_argument("--plain", action="store_true", help="print the lines as the proved program prints them")


def run(asked):
    """The table, or the program's own lines, with a word on standard error where these are a refusal."""
    settings = read_settings(asked.file, asked.form)
    text = printed(COUNTS.name, bytes_of(settings))
    if not asked.plain:
        return table(settings, text, Paper.of_output())
    if not rows_of(text, settings):
        tell(why_refused(settings))
    return text


COMMAND = Command(COUNTS.name, "count what a frame does, for settings", ABOUT, MORE, add_arguments, run)
