#!/usr/bin/env python3
"""Says where crates.txt, the heads of the crates, docs/map.md and the script seatlaw do not agree. Not part of the gate.

    python3 check/crates.py

crates.txt has the crates in groups by room, the rooms in the order of ROOMS, and in each group the lowest first. A crate is named
sl_ROOM_THING of its room, but for those of KEPT and the programs. The head comment of its src/lib.rt, or src/main.rt, says on which crates it
stands and which rooms use it: those of the crates that name it and reach it by no other way, and further ones that name it. The map has it in the table of its room, with those on which it stands. Named are the nearest crates, without
those that are reached by way of others. Each crate that the script names is there. A line is written for each thing that is wrong; the exit status is 0 if nothing is.
"""
import pathlib
import re
import sys

sys.path.append(str(pathlib.Path(__file__).resolve().parents[1] / "tools"))
from repository import CRATES, TOP  # noqa: E402

ROOMS = ("base", "law", "book", "returns", "code", "compile", "count", "explain", "report", "terminal", "page", "test")
# The names that stay as they are: those of libraries that others may name.
KEPT = set("sl_ratio sl_prio sl_lex sl_stages sl_parse sl_check sl_returns sl_code sl_verify sl_machine sl_blocks sl_compile sl_laws sl_table sl_desk".split())
PROGRAMS = {"seatlaw", "seatlaw_count"}
MAP = TOP / "docs" / "map.md"


class Listed:
    """The crates of crates.txt: of each its room and what it uses, in the order of the file; of these `own` are those of the repository."""

    def __init__(self):
        self.rooms, self.uses, self.groups, room = {}, {}, [], None
        for line in (TOP / "crates.txt").read_text().splitlines():
            if begins := re.match(r"# (%s)\b" % "|".join(ROOMS), line):
                room = begins[1]
                self.groups.append(room)
            elif row := re.match(r"(\w+)[^:#]*:(.*)", line):
                self.rooms[row[1]], self.uses[row[1]] = room, row[2].split()
        self.own = {name: [used for used in uses if used in self.uses] for name, uses in self.uses.items()}

    def below(self, name):
        """All crates on which a crate stands."""
        found, left = set(), list(self.own[name])
        while left:
            used = left.pop()
            if used not in found:
                found.add(used)
                left += self.own[used]
        return found

    def nearest(self, name):
        """The crates on which a crate stands, without those that are reached by way of others."""
        return [used for used in self.own[name] if not any(used in self.below(other) for other in self.own[name])]

    def users(self, name):
        """The rooms of the crates whose nearest it is, and those of all that use it."""
        nearest = {self.rooms[user] for user in self.uses if name in self.nearest(user)}
        every = {self.rooms[user] for user in self.uses if name in self.own[user]}
        return [room for room in ROOMS if room in nearest], [room for room in ROOMS if room in every]


def series(words):
    return words[0] if len(words) == 1 else ", ".join(words[:-1]) + " and " + words[-1]


def place(listed, name, said=""):
    """What the head of a crate has to say of its place: of the rooms that use it those of the nearest users, and others if it says so."""
    nearest, (rooms, every) = ["`%s`" % used for used in listed.nearest(name)], listed.users(name)
    rooms = [room for room in every if room in rooms or re.search(r"used by the rooms? [^.]*\b%s\b" % room, said)]
    stands = "Stands on %s; " % (series(nearest) if nearest else "no other crate")
    return stands + ("used by the room%s %s." % ("s" * (len(rooms) > 1), series(rooms)) if rooms else "nothing stands on it.")


def head(name):
    """The head comment of a crate in one line, or None where there is no such file."""
    for file in ("lib.rt", "main.rt"):
        path = CRATES / name / "src" / file
        if path.is_file():
            return " ".join(re.match(r"(?://!.*\n)*", path.read_text())[0].replace("//!", "").split())
    return None


def wrong_groups(listed):
    if listed.groups != list(ROOMS):
        yield "crates.txt: the rooms are %s, not %s" % (", ".join(listed.groups), ", ".join(ROOMS))
    before = set()
    for name, room in listed.rooms.items():
        for used in listed.own[name]:
            if listed.rooms[used] == room and used not in before:
                yield "crates.txt: %s stands before %s, which it uses" % (name, used)
        before.add(name)
    there = {path.name for path in CRATES.iterdir() if (path / "src").is_dir()}
    yield from ("crates.txt: no folder of %s" % name for name in listed.uses if name not in there)
    yield from ("crates.txt: no row of %s" % name for name in sorted(there - set(listed.uses)))


def wrong_names(listed):
    for name, room in listed.rooms.items():
        if name not in KEPT | PROGRAMS and not re.match("sl_%s_[a-z]" % room, name):
            yield "crates.txt: %s is no sl_%s_.." % (name, room)


def wrong_heads(listed):
    for name in listed.uses:
        said = head(name)
        wanted = place(listed, name, said or "")
        if said is None:
            yield "crates/%s: no src/lib.rt and no src/main.rt" % name
        elif wanted not in said:
            yield "crates/%s: the head does not say: %s" % (name, wanted)


def tables(text):
    """The tables of the map by room: of each its rows, which are the name of a crate, what it is, and on what it stands."""
    found = {}
    for section in re.split(r"^### ", text, flags=re.M)[1:]:
        room = section.split("\n")[0].strip()
        found[room] = re.findall(r"^\| `(\w+)` \| (.*) \| (.*) \|$", section.split("\n## ")[0], re.M)
    return found


def wrong_map(listed):
    found = tables(MAP.read_text())
    if list(found) != list(ROOMS):
        yield "docs/map.md: the rooms are %s, not %s" % (", ".join(found), ", ".join(ROOMS))
    for room in ROOMS:
        rows = found.get(room, [])
        wanted = [name for name in listed.uses if listed.rooms[name] == room]
        if [name for name, _, _ in rows] != wanted:
            yield "docs/map.md: %s has %s, not %s" % (room, ", ".join(name for name, _, _ in rows), ", ".join(wanted))
        for name, _, stands in rows:
            if name in listed.uses and stands != stands_on(listed, name):
                yield "docs/map.md: %s stands on %s, not %s" % (name, stands_on(listed, name), stands)


def stands_on(listed, name):
    """The cell of the map: the nearest crates, and those of the kit."""
    kit = ["`%s`" % used for used in listed.uses[name] if used not in listed.uses]
    cells = ["`%s`" % used for used in listed.nearest(name)] + ["the kit's " + ", ".join(kit)] * bool(kit)
    return ", ".join(cells) or "no other crate"


def wrong_script(listed):
    for name in sorted(set(re.findall(r"\bsl_\w+", (TOP / "seatlaw").read_text())) - set(listed.uses)):
        yield "seatlaw: there is no crate %s" % name


def wrong():
    listed = Listed()
    for look in (wrong_groups, wrong_names, wrong_heads, wrong_map, wrong_script):
        yield from look(listed)


def main():
    if sys.argv[1:]:
        sys.exit(__doc__)
    lines = list(wrong())
    print("".join(line + "\n" for line in lines), end="")
    return 1 if lines else 0


if __name__ == "__main__":
    sys.exit(main())
