#!/usr/bin/env python3
"""Draws docs/crates.svg: which crate stands on which, as crates.txt has it. Not part of the gate.

    python3 check/crates_picture.py           writes the picture
    python3 check/crates_picture.py --check   says whether the picture is as it would be drawn

The crates are those on which the program stands; tests, examples, theorems and the kit's crates are not drawn. A crate stands a row below
the lowest of those that use it, in the colour of its room. A line is left out where the two are joined by way of others.
"""
import pathlib
import sys

from crates import ROOMS, Listed

sys.path.append(str(pathlib.Path(__file__).resolve().parents[1] / "tools"))
from repository import TOP  # noqa: E402

PICTURE = TOP / "docs" / "crates.svg"
WIDTH, HEIGHT = 156, 26  # of a box
ACROSS, DOWN = 172, 64  # from box to box
MARGIN = 20
COLOURS = dict(zip(ROOMS, ("#eeeeee", "#fde0dd", "#fee8c8", "#fff7bc", "#d9f0d3", "#ccece6", "#d0e1f2", "#e0d4ee", "#f8d7ea", "#e8e4d8")))


def crates(listed):
    """Each crate of the program, with its nearest crates."""
    program = listed.below("seatlaw") | {"seatlaw"}
    return {name: listed.nearest(name) for name in listed.uses if name in program}


def rows_of(uses):
    """The crates by rows, the program first."""
    levels = {}

    def level(name):
        if name not in levels:
            levels[name] = 1 + max((level(user) for user in uses if name in uses[user]), default=-1)
        return levels[name]

    rows = [[] for _ in range(1 + max(level(name) for name in uses))]
    for name in uses:
        rows[levels[name]].append(name)
    return rows


def bent(rows, lines):
    """The rows with a bend in each row that a line passes, and the ways of the lines: from crate to crate by way of the bends."""
    row_of = {name: level for level, row in enumerate(rows) for name in row}
    rows, ways = [list(row) for row in rows], []
    for name, used in lines.items():
        for other in used:
            bends = [(name, other, level) for level in range(row_of[name] + 1, row_of[other])]
            for bend in bends:
                rows[bend[2]].append(bend)
            ways.append([name, *bends, other])
    return rows, ways


def apart(one, other):
    """How far two neighbours in a row stand apart: a bend is narrow."""
    return 0.5 * (isinstance(one, str) + isinstance(other, str)) or 0.15


def placed(rows, ways):
    """A place across for each crate and bend, near to the middle of those that it is joined with."""
    joined = {}
    for way in ways:
        for one, other in zip(way, way[1:]):
            joined.setdefault(one, []).append(other)
            joined.setdefault(other, []).append(one)
    place = {name: float(i) for row in rows for i, name in enumerate(row)}
    for turn in range(200):
        for row in rows if turn % 2 == 0 else rows[::-1]:
            wanted = {name: sum(place[other] for other in joined[name]) / len(joined[name]) for name in row}
            row.sort(key=lambda name: wanted[name])
            spread(row, wanted, place)
    least = min(place.values())
    return {name: at - least for name, at in place.items()}


def spread(row, wanted, place):
    """Sets the places of a row in its order, far enough apart and, taken together, where they are wanted."""
    at, places = 0.0, []
    for before, name in zip([None] + row, row):
        at = at + (apart(before, name) if before is not None else 0)
        at = max(at, wanted[name] - wanted[row[0]])
        places.append(at)
    shift = sum(wanted[name] - at for name, at in zip(row, places)) / len(row)
    for name, at in zip(row, places):
        place[name] = at + shift


def path(points):
    """A line down through points, each the middle of a box or a bend."""
    (x, y), *others = points
    y += HEIGHT
    words = ["M%.0f %.0f" % (x, y)]
    for u, v in others:
        words.append("C%.0f %.0f %.0f %.0f %.0f %.0f V%.0f" % (x, (y + v) / 2, u, (y + v) / 2, u, v, v if (u, v) == others[-1] else v + HEIGHT))
        x, y = u, v + HEIGHT
    return " ".join(words)


def picture():
    listed = Listed()
    uses = crates(listed)
    rows, ways = bent(rows_of(uses), uses)
    place = placed(rows, ways)
    at = {name: (MARGIN + place[name] * ACROSS + WIDTH / 2, MARGIN + level * DOWN) for level, row in enumerate(rows) for name in row}
    wide = max(x for x, _ in at.values()) + WIDTH / 2 + MARGIN
    rooms = [room for room in ROOMS if any(listed.rooms[name] == room for name in uses)]
    high = 3 * MARGIN + (len(rows) - 1) * DOWN + 2 * HEIGHT
    yield '<svg xmlns="http://www.w3.org/2000/svg" viewBox="0 0 %.0f %d" font-family="monospace" font-size="12">' % (wide, high)
    yield '<rect width="%.0f" height="%d" fill="white"/>' % (wide, high)
    for way in ways:
        yield '<path d="%s" fill="none" stroke="#555"/>' % path([at[name] for name in way])
    for name in uses:
        x, y = at[name]
        yield '<rect x="%.0f" y="%.0f" width="%d" height="%d" rx="4" fill="%s" stroke="#333"/>' % (x - WIDTH / 2, y, WIDTH, HEIGHT, COLOURS[listed.rooms[name]])
        yield '<text x="%.0f" y="%.0f" text-anchor="middle">%s</text>' % (x, y + 17, name)
    for n, room in enumerate(rooms):
        x, y = MARGIN + n * (wide - 2 * MARGIN) / len(rooms), high - MARGIN - HEIGHT
        yield '<rect x="%.0f" y="%.0f" width="%d" height="%d" fill="%s" stroke="#333"/>' % (x, y + 6, 14, 14, COLOURS[room])
        yield '<text x="%.0f" y="%.0f">%s</text>' % (x + 20, y + 17, room)
    yield "</svg>"


def main():
    text = "\n".join(picture()) + "\n"
    if sys.argv[1:] == ["--check"]:
        if not PICTURE.exists() or PICTURE.read_text() != text:
            sys.exit("docs/crates.svg is not as it would be drawn")
    elif sys.argv[1:]:
        sys.exit(__doc__)
    else:
        PICTURE.write_text(text)


if __name__ == "__main__":
    main()
