"""Where the tools of this folder find the program, and the modules of others that they import.

Importing it puts the second reading and the package of the commands on the path of modules, so it
is imported before those.
"""

import pathlib
import sys

FOLDER = pathlib.Path(__file__).resolve().parent
ROOT = FOLDER.parent.parent
PROGRAM = ROOT / "crates/bts/out/bts"

sys.path += [str(FOLDER.parent / "reading"), str(ROOT / "commands")]
