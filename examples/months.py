#!/usr/bin/env python3
"""The fares of each month of 2026, from a CSV file of rides: months.py FILE

It needs numpy, and libcrackd.so, which `make lib` builds. examples/rides.csv is such a file: its rides have times and
fares, of which some are missing.
"""

import argparse
import pathlib
import sys

sys.path.insert(0, str(pathlib.Path(__file__).resolve().parent.parent / "python"))


def main(path):
    import numpy as np

    import crackd

    rides = crackd.load_csv(path, payload="fare", missing="skip")
    months = np.arange("2026-01", "2027-02", dtype="datetime64[M]")
    for month, fares in zip(months, rides.sum_by(months)):
        print(month, f"{fares:.2f}")


if __name__ == "__main__":
    arguments = argparse.ArgumentParser(description=__doc__)
    arguments.add_argument("file", metavar="FILE")
    main(arguments.parse_args().file)
