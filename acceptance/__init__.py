"""Checks that `python3 -m unittest` finds from the top. The modules import each other without the package's name."""

import pathlib
import sys

sys.path.insert(0, str(pathlib.Path(__file__).resolve().parent))
