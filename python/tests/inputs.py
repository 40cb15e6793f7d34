"""Inputs of the tests of the package, and whether its library and numpy are there."""

from __future__ import annotations

import importlib.util
import os
import unittest
from pathlib import Path

DATA = Path(__file__).resolve().parents[2] / "crates" / "worked_examples" / "data"

P21C = "-x,y+1/2,-z+1/2\n-x,-y,-z\n"
P31 = "-y,x-y,z+1/3\n"


def group_text(name: str) -> str:
    return (DATA / "groups" / f"{name}.txt").read_text()


def expected(name: str) -> str:
    return (DATA / "expected" / name).read_text()


with_library = unittest.skipUnless(os.environ.get("SG_LIBRARY"), "SG_LIBRARY names no library")
with_numpy = unittest.skipUnless(importlib.util.find_spec("numpy"), "numpy is missing")
