"""The desk program as a user calls it, but for the proved programs: in the place of each runs the command whose words are the lines of
STAND_IN in the environment."""
import os
import pathlib
import sys

sys.dont_write_bytecode = True
sys.path.insert(0, str(pathlib.Path(__file__).resolve().parent.parent))
from desk import proved
from desk.main import main

proved.the_kit = lambda: None
proved.prove = lambda who, names: None
proved.running = lambda kit, program: os.environ["STAND_IN"].split("\n")

sys.exit(main(sys.argv[1:]))
