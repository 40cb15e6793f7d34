#!/usr/bin/python3
"""Makes settings.txt, beside this file, from what three other programs say: by hand, never part of the gate.

    /usr/bin/python3 checks/tables/make.py

It needs Debian's python3-cctbx, python3-gemmi, python3-spglib and python3-numpy, and takes half a minute. Each setting is one that
all three have, with the same operators. Each figure is computed from two of them, and where they differ, that is printed and no
file is written. README.md beside this file says which figure comes from where.
"""
import math
import os
import sys
from collections import Counter
from fractions import Fraction

import gemmi
import numpy
import spglib
from cctbx import maptbx, miller, sgtbx, uctbx
from cctbx.array_family import flex

BOX = 6
GRID = 12
KINDS = ["1", "-1", "2", "m", "3", "-3", "4", "-4", "6", "-6"]
# Of each type with a proper part of this trace the order of that part: the classical table.
ORDER_BY_TRACE = {3: 1, -1: 2, 0: 3, 1: 4, 2: 6}
HEAD = "# Space-group settings as other programs tabulate them. README.md beside this file says how it is read.\n"

disagreements = []


def agree(setting, what, first, second):
    """The figure that two sources give, of which a difference is told."""
    if first != second:
        disagreements.append("%s: %s: %s, but %s" % (setting, what, first, second))
    return first


# ---- operators: nine entries, and three numbers of the translation in twelfths, 0 to 11

def cctbx_operators(group):
    found = set()
    for operator in group.all_ops(mod=1):
        rotation, translation = operator.r(), operator.t()
        assert rotation.den() == 1 and translation.den() == 12
        found.add((tuple(rotation.num()), tuple(t % 12 for t in translation.num())))
    return frozenset(found)


def of_gemmi(operator):
    rotation = tuple(entry // operator.DEN for row in operator.rot for entry in row)
    return rotation, tuple(t * 12 // operator.DEN % 12 for t in operator.tran)


def gemmi_operators(entry):
    return frozenset(of_gemmi(operator) for operator in entry.operations())


def spglib_operators(number):
    found = set()
    database = spglib.get_symmetry_from_database(number)
    for rotation, translation in zip(database["rotations"], database["translations"]):
        twelfths = [round(float(t) * 12) for t in translation]
        assert all(abs(float(t) * 12 - n) < 1e-6 for t, n in zip(translation, twelfths))
        found.add((tuple(int(entry) for entry in rotation.ravel()), tuple(n % 12 for n in twelfths)))
    return frozenset(found)


def product(left, right):
    """left after right"""
    a, s = left
    b, t = right
    rotation = tuple(sum(a[3 * i + k] * b[3 * k + j] for k in range(3)) for i in range(3) for j in range(3))
    return rotation, tuple((sum(a[3 * i + k] * t[k] for k in range(3)) + s[i]) % 12 for i in range(3))


def generated(generators):
    identity = ((1, 0, 0, 0, 1, 0, 0, 0, 1), (0, 0, 0))
    members, last = {identity}, [identity]
    while last:
        images = {product(member, generator) for member in last for generator in generators}
        last = list(images - members)
        members.update(last)
    return members


def generators_of(entry):
    """The centring translations, then gemmi's operators in gemmi's order; each where those before it do not make it."""
    operations = entry.operations()
    chosen, made = [], generated([])
    centrings = [gemmi.Op("x,y,z").translated(t) for t in operations.cen_ops]
    for operator in map(of_gemmi, centrings + list(operations.sym_ops)):
        if operator not in made:
            chosen.append(operator)
            made = generated(chosen)
    assert made == gemmi_operators(entry)
    return chosen


def triplet(operator):
    rotation, translation = operator
    components = []
    for i in range(3):
        component = ""
        for entry, letter in zip(rotation[3 * i:3 * i + 3], "xyz"):
            assert -1 <= entry <= 1
            component += ["", "+" + letter, "-" + letter][entry]
        if translation[i]:
            component += "+%s" % Fraction(translation[i], 12)
        components.append(component.lstrip("+"))
    return ",".join(components)


# ---- figures

def counts(values, order):
    """Each value that occurs, in this order, with how often it does: `2:3` is a 2 that occurs three times."""
    return " ".join("%s:%d" % (value, values[value]) for value in order if values[value])


def descending(values):
    return counts(values, sorted(values, reverse=True))


def kinds_by_cctbx(group):
    types = Counter(operator.r().info().type() for operator in group.all_ops(mod=1))
    return counts(Counter({"m" if kind == -2 else str(kind): n for kind, n in types.items()}), KINDS)


def kinds_by_trace(operators):
    found = Counter()
    for rotation, _ in operators:
        determinant = round(numpy.linalg.det(numpy.array(rotation).reshape(3, 3)))
        order = ORDER_BY_TRACE[determinant * (rotation[0] + rotation[4] + rotation[8])]
        found["m" if (determinant, order) == (-1, 2) else str(determinant * order)] += 1
    return counts(found, KINDS)


def box_indices():
    one = range(-BOX, BOX + 1)
    return [(h, k, l) for h in one for k in one for l in one]


def greatest(classes):
    """Of each class of the box, given by a name of the class of each index, the greatest index: a restricted phase is another for
    another index of the class."""
    found = {}
    for index, name in zip(box_indices(), classes):
        found[name] = max(index, found.get(name, index))
    return found.values()


def class_figures(sizes, marks):
    phases = sorted((mark for mark in marks if mark not in ("absent", "free")), key=int)
    return ["classes %d %s" % (sum(sizes.values()), descending(sizes)), "marks " + counts(marks, ["absent", "free"] + phases)]


def classes_by_cctbx(group, type_):
    indices = flex.miller_index(box_indices())
    miller.map_to_asu(type_, False, indices)
    sizes, marks = Counter(), Counter()
    for index in greatest(indices):
        sizes[group.multiplicity(index, False)] += 1
        restriction = group.phase_restriction(index)
        if group.is_sys_absent(index):
            marks["absent"] += 1
        elif restriction.is_centric():
            marks["%g" % round(restriction.ht_angle(True) % 180, 6)] += 1
        else:
            marks["free"] += 1
    return class_figures(sizes, marks)


def classes_by_gemmi(entry):
    operations = entry.operations()
    asymmetric_unit = gemmi.ReciprocalAsu(entry)
    sizes, marks = Counter(), Counter()
    for index in greatest(tuple(asymmetric_unit.to_asu(index, operations)[0]) for index in box_indices()):
        centric = operations.is_reflection_centric(index)
        images = len(operations.sym_ops) // operations.epsilon_factor_without_centering(index)
        opposite = tuple(-n for n in index)
        has_opposite = any(tuple(op.apply_to_hkl(index)) == opposite for op in operations.sym_ops)
        assert centric == has_opposite
        sizes[images if centric else 2 * images] += 1
        if operations.is_systematically_absent(index):
            marks["absent"] += 1
        elif centric:
            turning = next(op for op in operations.sym_ops if tuple(op.apply_to_hkl(index)) == opposite)
            marks["%g" % (round(math.degrees(-turning.phase_shift(index)) / 2, 6) % 180)] += 1
        else:
            marks["free"] += 1
    return class_figures(sizes, marks)


def orbit_figures(sizes):
    return "orbits %d %s" % (sum(sizes.values()), descending(sizes))


def orbits_by_cctbx(type_):
    tags = maptbx.grid_tags((GRID, GRID, GRID))
    tags.build(type_, maptbx.use_space_group_symmetry)
    array = tags.tag_array().as_numpy_array().ravel()
    first = numpy.where(array < 0, numpy.arange(array.size), array)
    while (first[first] != first).any():
        first = first[first]
    return orbit_figures(Counter(Counter(first.tolist()).values()))


def orbits_by_gemmi(entry):
    """Each point gets the greatest number of its orbit."""
    numbers = numpy.arange(GRID ** 3, dtype=numpy.float32).reshape(GRID, GRID, GRID)
    grid = gemmi.FloatGrid(numbers)
    grid.spacegroup = entry
    grid.symmetrize_max()
    return orbit_figures(Counter(Counter(numpy.array(grid).ravel().tolist()).values()))


def positions_of(type_):
    """cctbx's table: of each position the multiplicity, the letter, and a representative point as International Tables has it."""
    table = sgtbx.wyckoff_table(type_)
    return [table.position(i) for i in range(table.size())]


def letter_of(position):
    """The 27th position of Pmmm is an alpha: cctbx writes `@`, spglib `A`."""
    return position.letter().replace("@", "A")


def orbit_of(point, operators):
    """The images of a point in a cell."""
    found = []
    for rotation, translation in operators:
        image = [sum(rotation[3 * i + j] * point[j] for j in range(3)) + translation[i] / 12 for i in range(3)]
        if not any(all(abs((a - b + 0.5) % 1 - 0.5) < 1e-8 for a, b in zip(image, other)) for other in found):
            found.append(image)
    return found


def crystal_of(group, positions, operators):
    """The lattice, the atoms and their species of a crystal of this group and of no greater one: the atoms of one species are an
    orbit, the first on the general position, and then one on each position."""
    cell = group.average_unit_cell(uctbx.unit_cell((7.1, 8.3, 9.7, 81, 97, 103)))
    atoms, species = [], []
    for number, position in enumerate([positions[0]] + positions):
        parameters = [(0.0713 + 0.1931 * number) % 1, (0.2117 + 0.1127 * number) % 1, (0.3391 + 0.0717 * number) % 1]
        rotation, translation = (part.as_double() for part in (position.special_op().r(), position.special_op().t()))
        point = [sum(rotation[3 * i + j] * parameters[j] for j in range(3)) + translation[i] for i in range(3)]
        orbit = orbit_of(point, operators)
        atoms += orbit
        species += [number] * len(orbit)
    return numpy.array(cell.orthogonalization_matrix()).reshape(3, 3).T, atoms, species


def positions_by_spglib(group, positions, operators):
    """What spglib finds of that crystal: the number of its type, and of each species on a position how many atoms are equivalent
    to its first one, and the letter."""
    crystal = crystal_of(group, positions, operators)
    dataset = spglib.get_symmetry_dataset(crystal, symprec=1e-4)
    firsts = [crystal[2].index(number + 1) for number in range(len(positions))]
    equivalent = Counter(dataset["equivalent_atoms"].tolist())
    return dataset["number"], [(equivalent[dataset["equivalent_atoms"][n]], dataset["wyckoffs"][n]) for n in firsts]


# ---- all of it

def block(symbol, entry, spglib_number):
    group = sgtbx.space_group(symbol)
    type_ = group.type()
    name = "%d %s" % (symbol.number(), symbol.universal_hermann_mauguin())
    operators = cctbx_operators(group)
    agree(name, "operators of gemmi", operators, gemmi_operators(entry))
    agree(name, "operators of spglib", operators, spglib_operators(spglib_number))
    agree(name, "number of the type", (symbol.number(),) * 3,
          (type_.number(), entry.number, spglib.get_spacegroup_type(spglib_number)["number"]))
    kinds = agree(name, "kinds", kinds_by_cctbx(group), kinds_by_trace(spglib_operators(spglib_number)))
    classes = agree(name, "classes", classes_by_cctbx(group, type_), classes_by_gemmi(entry))
    orbits = agree(name, "orbits", orbits_by_cctbx(type_), orbits_by_gemmi(entry))
    positions = positions_of(type_)
    number, by_spglib = positions_by_spglib(group, positions, operators)
    agree(name, "number by spglib", symbol.number(), number)
    agree(name, "multiplicities", [p.multiplicity() for p in positions], [multiplicity for multiplicity, _ in by_spglib])
    agree(name, "multiplicities of letters", sorted((p.multiplicity(), letter_of(p)) for p in positions), sorted(by_spglib))
    figures = ["operators %d %s" % (len(operators), kinds)] + classes + [orbits]
    shown = ["%d %s %s" % (p.multiplicity(), letter_of(p), p.special_op_simplified()) for p in positions]
    same = all(letter_of(p) == letter for p, (_, letter) in zip(positions, by_spglib))
    head = ["= " + name, "# " + symbol.hall().strip(), " ".join(["<"] + list(map(triplet, generators_of(entry))))]
    return head, figures, shown, same


def main():
    by_gemmi, by_spglib = {}, {}
    for entry in gemmi.spacegroup_table():
        by_gemmi.setdefault(gemmi_operators(entry), entry)
    for number in range(1, 531):
        by_spglib.setdefault(spglib_operators(number), number)
    text, seen, figures_above, letters_equal = [HEAD], set(), {}, 0
    for symbol in sgtbx.space_group_symbol_iterator():
        operators = cctbx_operators(sgtbx.space_group(symbol))
        if operators in seen or operators not in by_gemmi or operators not in by_spglib:
            continue
        seen.add(operators)
        head, figures, positions, same = block(symbol, by_gemmi[operators], by_spglib[operators])
        letters_equal += same
        above = figures_above.get(symbol.number(), [])
        figures_above = {symbol.number(): figures}
        text += ["\n".join(head + [figure for figure in figures if figure not in above] + positions) + "\n"]
        print(head[0][2:], file=sys.stderr)
    print("%d settings; %d with spglib's letters as cctbx's" % (len(seen), letters_equal))
    for line in disagreements:
        print(line)
    if disagreements:
        sys.exit(1)
    with open(os.path.join(os.path.dirname(os.path.abspath(__file__)), "settings.txt"), "w") as file:
        file.write("\n".join(text))


if __name__ == "__main__":
    main()
