#!/usr/bin/env python3
"""Writes crates/test_calls/stdin and crates/test_calls/stdout: square roots, the parameters of pairs, lists of pairs, the
records of steps and forecasts of runs, and what comes of them by documents 01 and 02.

A case begins with a word for its kind: 0 is a square root, 1 the parameters of a pair, 2 a list of pairs, 3 the records of a
step and 4 a forecast. Its other words and its answer are those of root_vectors.py, rotation_vectors.py, ordering_vectors.py,
records_vectors.py and forecast_vectors.py.
"""
import argparse
import pathlib
import sys

sys.dont_write_bytecode = True  # the imports below leave no file
import forecast_vectors as forecast
import ordering_vectors as ordering
import records_vectors as records
import root_vectors as root
import rotation_vectors as rotation

MODELS = [root, rotation, ordering, records, forecast]  # by the word for the kind


def lines_of(kind):
    """The lines of each case of a kind and of its answer."""
    for lines, answer in MODELS[kind].all_lines():
        yield [f"{kind:016X}\n", *lines], answer


def main():
    argparse.ArgumentParser(description=__doc__.split("\n\n")[0], epilog="It takes no arguments.").parse_args()
    made = [case for kind in range(len(MODELS)) for case in lines_of(kind)]
    crate = pathlib.Path(__file__).resolve().parent.parent / "crates" / "test_calls"
    for name, side in [("stdin", 0), ("stdout", 1)]:
        text = "".join(line for lines in made for line in lines[side])
        (crate / name).write_text(text, encoding="ascii")


if __name__ == "__main__":
    main()
