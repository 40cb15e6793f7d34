"""Writes the page of the operators in a file: `python3 -m sg.draw FILE [--axes abc] [--rows 2,3] [--title TEXT] > sheet.html`."""

from __future__ import annotations

import argparse
import sys
from collections.abc import Sequence

from sg import Error

from . import read_group, sheet
from .answers import Refused


def main(words: Sequence[str] | None = None) -> int:
    parser = argparse.ArgumentParser(
        prog="python3 -m sg.draw",
        description="A page with the diagrams of a space group.",
        epilog="SG in the environment names the program that answers what the group is. Without it the library does.",
    )
    parser.add_argument("file", help="its operators, one a line; - is standard input")
    parser.add_argument("--axes", help="the axes to project along, as abc; where none is told, that of most symmetry axes")
    parser.add_argument("--rows", type=_places, help="the rows whose points are shown, as 2,3; if left out, all of fixed points")
    parser.add_argument("--title", help="a heading; without one, the first line that begins with #")
    told = parser.parse_args(words)
    try:
        with open(0 if told.file == "-" else told.file, "rb") as file:
            text = file.read()
        lines = text.decode(errors="replace").splitlines()
        remark = next((line.strip("# ") for line in lines if line.startswith("#")), "")
        page = sheet(read_group(text), told.title or remark, told.axes, told.rows)
    except (Error, Refused) as fault:
        print(fault, file=sys.stderr)
        return fault.status
    except (OSError, ValueError) as fault:
        parser.error(str(fault))
    sys.stdout.write(page)
    return 0


def _places(text: str) -> list[int]:
    return [int(place) for place in text.split(",")]


if __name__ == "__main__":
    sys.exit(main())
