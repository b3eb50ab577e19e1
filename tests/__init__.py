"""Tests of what is built, of the documents and of the mutants: `python3 -m unittest tests.program`, at the top."""

import signal
import sys
from pathlib import Path

sys.dont_write_bytecode = True
# The module `fmtcanon`, which tests.frame.fixtures gives the library and the program.
sys.path.append(str(Path(__file__).resolve().parent.parent / "python"))
# In the background of a script this signal is ignored, and by all that is started there.
signal.signal(signal.SIGINT, signal.default_int_handler)
