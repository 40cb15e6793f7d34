#!/usr/bin/python3
"""The built program beside gemmi on the CIF files of a folder: by hand, never part of the gate. Needs Debian's python3-gemmi.

    /usr/bin/python3 checks/cif.py FOLDER [PROGRAM]

Of each file that lists operators: whether `sg ops` prints the same ones as gemmi, and of each atom whether `sg site` counts as many
points of its orbit as gemmi finds more than a millionth of an Angstrom apart. How many it finds more than a tenth of one apart is
counted too: where that is less, the file rounds a coordinate, as 1/3 to 0.3333. Each difference prints one line; the status is 0
only where there is none.
"""
import glob
import os
import re
import subprocess
import sys
from collections import Counter

import gemmi

TAGS = ["_space_group_symop_operation_xyz", "_space_group_symop.operation_xyz", "_symmetry_equiv_pos_as_xyz"]
ATOM_TAGS = ["_atom_site_label", "_atom_site_fract_x", "_atom_site_fract_y", "_atom_site_fract_z"]
top = os.path.dirname(os.path.dirname(os.path.abspath(__file__)))
program = sys.argv[2] if len(sys.argv) > 2 else os.path.join(top, "crates/sg/out/sg")
count = Counter()


def ask(words, triplets):
    return subprocess.run([program] + words, input="\n".join(triplets) + "\n", capture_output=True, text=True)


def judge(what, name, expected, found):
    count[what] += 1
    if expected != found:
        count["different"] += 1
        print("%s: %s: %s, not %s" % (name, what, found, expected))


def triplets_of(block):
    for tag in TAGS:
        values = [gemmi.cif.as_string(value) for value in block.find_values(tag)]
        if values:
            return values
    return []


def number_of_images(group, cell, position, distance):
    """How many images of a point there are in a cell, where those not further apart than this are one."""
    found = []
    for operation in group:
        image = cell.orthogonalize(gemmi.Fractional(*operation.apply_to_xyz(position)))
        if all(cell.find_nearest_image(image, other, gemmi.Asu.Any).dist() > distance for other in found):
            found.append(image)
    return len(found)


def compare_atom(name, triplets, group, cell, atom):
    words = [re.sub(r"\(.*", "", atom[i]) for i in (1, 2, 3)]
    try:
        position = [float(word) for word in words]
    except ValueError:
        count["atoms without a place"] += 1
        return
    if any(re.search(r"\.\d{7}", word) for word in words):
        count["atoms with more decimals than sg reads"] += 1
        return
    lines = ask(["site"] + words, triplets).stdout.split("\n")
    exact, near = (number_of_images(group, cell, position, distance) for distance in (1e-6, 0.1))
    judge("atoms", "%s: %s" % (name, atom[0]), "multiplicity %d" % exact, lines[1] if len(lines) > 1 else "nothing")
    count["atoms with rounded coordinates"] += near < exact


def compare_file(path):
    try:
        block = gemmi.cif.read(path)[0]
        triplets = triplets_of(block)
        group = gemmi.GroupOps([gemmi.Op(triplet) for triplet in triplets])
        cell = gemmi.UnitCell(*gemmi.make_small_structure_from_block(block).cell.parameters)
    except (RuntimeError, ValueError, IndexError):
        count["files that gemmi does not read"] += 1
        return
    if not triplets:
        count["files without operators"] += 1
        return
    name = os.path.basename(path)
    judge("files", name, sorted(operation.triplet() for operation in group), sorted(ask(["ops"], triplets).stdout.split()))
    for atom in block.find(ATOM_TAGS):
        compare_atom(name, triplets, group, cell, atom)


for file in sorted(glob.glob(os.path.join(sys.argv[1], "**", "*.cif"), recursive=True)):
    compare_file(file)
print(", ".join("%s %d" % item for item in sorted(count.items())) or "no files")
sys.exit(count["different"] > 0 or count["files"] == 0)
