"""One page with the diagrams of a group, a legend of their symbols, its rows and its operators."""

from __future__ import annotations

from collections.abc import Iterable, Sequence
from fractions import Fraction
from html import escape

from . import symbols
from .answers import Operation, Row, SpaceGroup
from .geometry import Elements, Glide
from .svg import draw_elements, draw_general, draw_positions, picture, side_by_side

_LISTED = 48  # so many operators are printed

_LEGEND_ARROWS: dict[Glide, list[tuple[float, float]]] = {
    Glide.MIRROR: [],
    Glide.ALONG: [(0, 1)],
    Glide.ACROSS: [(1, 0)],
    Glide.BOTH: [(0, 1), (1, 0)],
    Glide.DIAGONAL: [(0.7, 0.7)],
    Glide.QUARTER: [(0.7, 0.7)],
}

# All is said of what the class `sg` holds, since a notebook has the page among other things.
_STYLE = """
.sg{font-family:Helvetica,Arial,'Liberation Sans','DejaVu Sans',sans-serif;font-size:10.5pt;line-height:1.25;color:#111;
background:#fff;max-width:1060px;margin:0 auto;padding:16px}
.sg h1{font-size:17pt;font-weight:600;margin:0}.sg h2{font-size:10.5pt;font-weight:600;margin:0 0 4px}.sg p{margin:4px 0 12px}
.sg .note{color:#555;font-size:9pt}.sg figure{margin:0}.sg figure svg{max-width:100%;height:auto}
.sg .row{display:flex;gap:12px 24px;align-items:flex-start;margin:14px 0}.sg .row>*{flex:0 1 auto;min-width:0}
.sg .two{columns:2;column-gap:40px}
.sg .legend{display:grid;grid-template-columns:repeat(auto-fill,minmax(310px,1fr));gap:2px 20px;font-size:9pt;margin:0 0 16px}
.sg .legend div{display:flex;align-items:center;gap:10px}.sg .legend svg{flex:none}
.sg table{border-collapse:collapse;font-size:9.5pt}
.sg th{text-align:left;font-weight:600;border:0;border-bottom:1px solid #111}.sg td{border:0}
.sg td,.sg th{padding:2px 20px 2px 0;vertical-align:top;background:#fff}.sg td.n,.sg th.n{text-align:right}
.sg .bar{text-decoration:overline}
@media screen and (max-width:700px){.sg .row{flex-wrap:wrap}.sg .two{columns:1}}
@page{margin:14mm}@media print{.sg{padding:0;max-width:none}.sg figure,.sg tr,.sg .legend div{break-inside:avoid}}
"""


class Html(str):
    """The text of an HTML page, which a notebook shows as one."""

    def _repr_html_(self) -> str:
        start, end = self.index("<style>"), self.rindex("</body>")
        return self[start:end].replace("</head><body>", "", 1)


def sheet(group: SpaceGroup, title: str, axes: str, rows: Sequence[int] | None) -> Html:
    """A page without scripts that needs no other file: the diagrams along each of `axes`, a legend, the rows, the operators. The
    points of `rows` are shown; if None, of those without a free coordinate."""
    heading = escape(title or "Space group")
    counts = [(len(group.operations), "operator"), (len(group.centrings), "translation"), (len(group.rows), "Wyckoff position")]
    note = (
        f"In a cell: {', '.join(f'{n} {name}' + 's' * (n != 1) for n, name in counts)}. The origin is the corner at the upper"
        " left. The axis of projection points at the reader, and heights are fractions of it; an element without one has height"
        " 0. A general point x, y, z has a comma where an improper operation makes it. In its height a letter is that"
        " coordinate, and + and − stand for the one along the axis of projection."
    )
    columns = "two" if len(group.operations) > 12 else "one"
    return Html(
        f'<!DOCTYPE html>\n<html lang="en"><head><meta charset="utf-8"><title>{heading}</title><style>{_STYLE}</style></head><body>'
        f'<div class="sg"><h1>{heading}</h1><p class="note">{note}</p>{"".join(_diagrams(group, axis) for axis in axes)}'
        f'<div class="row"><div><h2>Wyckoff positions</h2>{_rows(group.rows, len(group.operations))}</div>'
        f'{_points(group, axes[0], rows)}</div>'
        f'<h2>Operators</h2><div class="{columns}">{_operations(group.operations)}</div></div></body></html>\n'
    )


def _diagrams(group: SpaceGroup, axis: str) -> str:
    drawn, found = draw_elements(group, axis)
    pictures = zip(("Symmetry elements", "General position"), side_by_side(drawn, draw_general(group, axis)))
    figures = "".join(f"<figure><h2>{name} along {axis}</h2>{shown}</figure>" for name, shown in pictures)
    kinds = ", ".join(map(_axis_name, found.inclined))
    left_out = f'<p class="note">Elements inclined to {axis} are not drawn: those of operations of the kinds {kinds}.</p>'
    return f'<div class="row">{figures}</div>{_legend(found)}' + (left_out if found.inclined else "")


def _points(group: SpaceGroup, axis: str, rows: Sequence[int] | None) -> str:
    if rows is None and not any(row.is_fixed for row in group.rows):
        return ""
    heading = "Rows without a free coordinate" if rows is None else "Points of the rows " + ", ".join(map(str, rows))
    return f"<figure><h2>{heading}, along {axis}</h2>{picture(draw_positions(group, rows, axis))}</figure>"


def _axis_name(symbol: str) -> str:
    """The symbol as it is printed, with a bar or a subscript."""
    name, _, rest = symbol.partition("/")
    name, _, step = name.partition("_")
    shown = f'<span class="bar">{name[1:]}</span>' if name.startswith("-") else name
    return shown + (f"<sub>{step}</sub>" if step else "") + (f"/{rest}" if rest else "")


def _legend(found: Elements) -> str:
    entries = []
    for symbol in dict.fromkeys(axis.symbol for axis in found.upright_axes):
        entries.append((symbols.axis(symbol, 20, 14), f"{_axis_name(symbol)}: {symbols.axis_meaning(symbol)}"))
    for glide in dict.fromkeys(plane.glide for plane in found.upright_planes):
        line = symbols.plane_line((2, 14), (38, 14), glide, int(glide is Glide.QUARTER))
        entries.append((line, symbols.UPRIGHT_PLANES[glide]))
    for symbol in sorted({axis.symbol for axis in found.flat_axes}):
        meaning = f"{_axis_name(symbol)} in the paper: {symbols.axis_meaning(symbol)}"
        entries.append((symbols.flat_axis(symbol, (12, 14), (1, 0)), meaning))
    for glide in dict.fromkeys(plane.glide for plane in found.flat_planes):
        entries.append((symbols.corner(12, 4, ((1, 0), (0, 1)), _LEGEND_ARROWS[glide]), symbols.FLAT_PLANES[glide]))
    items = (f'<div><svg width="40" height="28">{drawn}</svg><span>{words}</span></div>' for drawn, words in entries)
    return f'<div class="legend">{"".join(items)}</div>'


def _table(heads: Sequence[str], rows: Iterable[Sequence[object]], numbers: int) -> str:
    """A table whose first columns, so many, are numbers. A long cell is broken behind a comma."""

    def line(cells: Sequence[object], name: str) -> str:
        words = [str(cell).replace(",", ",<wbr>") for cell in cells]
        starts = [f'<{name} class="n">' if i < numbers else f"<{name}>" for i in range(len(cells))]
        return "<tr>" + "".join(f"{start}{word}</{name}>" for start, word in zip(starts, words)) + "</tr>"

    return f"<table>{line(heads, 'th')}{''.join(line(cells, 'td') for cells in rows)}</table>"


def _rows(rows: Sequence[Row], order: int) -> str:
    heads = ("row", "points", "site order", "points with free coordinates", "special-position operator")
    return _table(heads, ((r.place, r.multiplicity, order // r.multiplicity, r.parameters, r.text) for r in rows), 3)


def _operations(operations: Sequence[Operation]) -> str:
    cells = (
        (o.text, _axis_name(o.kind), _vector(o.intrinsic), ",".join(map(str, o.axis)) if o.axis else "-")
        for o in operations[:_LISTED]
    )
    more = len(operations) - _LISTED
    rest = f'<p class="note">.. and {more} more.</p>' if more > 0 else ""
    return _table(("operator", "kind", "screw or glide part", "axis"), cells, 0) + rest


def _vector(vector: Sequence[Fraction]) -> str:
    return ",".join(map(str, vector)) if any(vector) else "-"
