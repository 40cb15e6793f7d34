"""Groups of the tests, by generators that International Tables A select, and the program that answers them."""

from __future__ import annotations

import os

from sg.draw.answers import SpaceGroup, by_program, read_group

PROGRAM = os.environ.get("SG")

P1BAR = "-x,-y,-z\n"
P21C = "-x,y+1/2,-z+1/2\n-x,-y,-z\n"
P21C_SHEARED = "-x+2*y+1/2,y+1/2,-z+1/2\n-x,-y,-z\n"  # in the coordinates x + y, y, z
P2_OBLIQUE = "-x+2*y+1/2,y,2*y-z\n"  # -x+1/2,y,-z in the coordinates x + y, y, y + z
P212121 = "-x+1/2,-y,z+1/2\n-x,y+1/2,-z+1/2\n"
P41 = "-y,x,z+1/4\n"
P43 = "-y,x,z+3/4\n"
R3BAR = "x+2/3,y+1/3,z+1/3\n-y,x-y,z\n-x,-y,-z\n"
R3BAR_PRIMITIVE = "z,x,y\n-x,-y,-z\n"
P6MMM = "x-y,x,z\ny,x,-z\n-x,-y,-z\n"
I41AMD = "x+1/2,y+1/2,z+1/2\n-x+1/2,-y,z+1/2\n-y+1/4,x+3/4,z+1/4\n-x+1/2,y,-z+1/2\n-x,-y,-z\n"
FM3M = "x,y+1/2,z+1/2\nx+1/2,y,z+1/2\n-x,-y,z\n-x,y,-z\nz,x,y\ny,x,-z\n-x,-y,-z\n"


def group(text: str) -> SpaceGroup:
    return read_group(text, by_program(PROGRAM))
