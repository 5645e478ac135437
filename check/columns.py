#!/usr/bin/env python3
"""Compares the columns of all tables of reports: those of the sheets (sl_report_tables), of docs/report.schema.json, of the Python package, and of the
table on the page of examples. What a column holds is told by the definitions of the tables (sl_report_tables specs/), to which the sheets are proved;
the schema and the types of the package have to say the same. Not part of the gate; it needs no program.

    python3 check/columns.py            each difference is a line; the exit status is 0 if there is none
    python3 check/columns.py --write    first writes the tables of the schema anew. What the schema says of a column beyond its kind, as the words that
                                        it may have, stays where it fits
"""
import ast
import json
import pathlib
import re
import sys

sys.path.append(str(pathlib.Path(__file__).resolve().parents[1] / "tools"))
from repository import CRATES, EXAMPLES, TOP  # noqa: E402

TABLES, SCHEMA = CRATES / "sl_report_tables", TOP / "docs" / "report.schema.json"
FORMS = re.compile(r"(pub\(crate\) )?const (\w+): \[ColumnForm; \d+\] = \[(.*?)\];", re.S)
# A sheet: its key, its title, and its columns, which may stand behind those of names; those of winners by their places have one place each.
SHEET = re.compile(r'"(\w+)",\s*(?:Title::\w+\(\w+\)|\w+),\s*(are_full,\s*)?(?:&(\w+)|Placed::)')

# What a cell of a definition holds, by the word that it begins with; each other one is a text.
CELLS = {
    "nothing": "none",
    "a_number": "count",
    "known": "count_or_none",
    "won_cell": "count_or_none",
    "a_change": "change",
    "change_since": "change_or_none",
    "change_cell": "change_or_none",
    "a_flag": "flag",
    "known_flag": "flag_or_none",
    "percent_cell": "decimal",
    "rounded_cell": "decimal",
    "fraction_cell": "decimal",
    "percent_exact_cell": "fraction",
    "fraction_exact_cell": "fraction",
    "divisor_cell": "divisor",
    "claimants_cell": "names_or_none",
    **dict.fromkeys(["party_cell", "land_side", "party_side", "condition_cell", "tied", "fault_cell", "differs"], "text_or_none"),
    "tied_seats": "count_or_none",
}
# Cells that stand together in several rows.
GROUPS = {"seat_cells": ["count_or_none"] * 3, "compared_name": ["text_or_none", "text"]}
# The type that the Python package has for each kind.
TYPES = {
    "count": "int",
    "count_or_none": "Optional[int]",
    "change_or_none": "Optional[int]",
    "text": "str",
    "text_or_none": "Optional[str]",
    "decimal": "Optional[Decimal]",
    "fraction": "Optional[Fraction]",
    "divisor": "Union[Decimal, Fraction, None]",
    "names_or_none": "Optional[Tuple[str, ...]]",
    "flag": "bool",
    "flag_or_none": "Optional[bool]",
}
# The definitions of the rows of each table.
ROWS = {
    "law": ["law"],
    "fault": ["fault"],
    "explanation": ["explanation"],
    "totals": ["totals"],
    "press": ["press_row", "gone_row", "sum_row"],
    "left_out": ["lacking_row"],
    "singles": ["winner_row"],
    "open": ["winner_row"],
    "cells": ["cell_row", "one_row"],
    "compare": ["compared_row"],
    "changes": ["change_row"],
    "covering": ["ranked_row"],
    "parties": ["party_row"],
    "lists": ["list_row"],
    "entries": ["entry_row"],
    "scopes": ["scope_row"],
    "winners": ["won_row"],
    "lands": ["land_row"],
    "warnings": ["warning_row"],
    "books": ["book_row"],
    "steps": ["step_row"],
    "bounds": ["bounds_row"],
    "stages": ["stage_row"],
    "votes": ["votes_row"],
    "seats": ["seats_row"],
    "list_seats": ["list_seats_row"],
}


def sheets():
    """The columns of each table, as the sheets have them. Columns are those of the file, or those that another file shares."""
    texts = [path.read_text(encoding="utf-8") for path in sorted((TABLES / "src").glob("*.rt"))]
    shared = {name: rows for text in texts for is_shared, name, rows in FORMS.findall(text) if is_shared}
    placed = dict((name, rows) for text in texts if "fn placed_sheet" in text for _, name, rows in FORMS.findall(text))["WINNERS"]
    tables = {}
    for text in texts:
        forms = {**shared, **{name: rows for _, name, rows in FORMS.findall(text)}}
        for key, named, name in SHEET.findall(text):
            rows = forms[name] if name else placed
            tables[key] = re.findall(r'\(\s*"(\w+)"', forms["BOTH_NAMES"] + rows if named else rows)
    return tables


def parts(text, mark):
    """A text cut at a mark that stands in no bracket."""
    found, depth = [""], 0
    for character in text:
        depth += (character in "([{") - (character in ")]}")
        if character == mark and not depth:
            found.append("")
        else:
            found[-1] += character
    return [it.strip() for it in found]


def definitions():
    """What each row of the definitions holds, cell by cell, as far as its cells are listed one by one."""
    text = "\n".join(path.read_text(encoding="utf-8") for path in sorted((TABLES / "specs").glob("*.antt")))
    text = re.sub(r"^ *--.*$", "", text, flags=re.M)
    rows = dict(re.findall(r"^(\w+_row|margin_cells)(?: \w+)* =\s+(.*?)\n\n", text, flags=re.M | re.S))
    for key in ("law", "fault", "totals"):
        rows[key] = re.search(r'key = codes "%s";.*?rows = \((.*?)\) ∷ \[\];' % key, text, re.S)[1]
    rows["explanation"] = "prose ∷ []"

    def cells(name):
        found = []
        for cell in parts(re.sub(r"\s+", " ", rows[name]).replace("++", "∷"), "∷"):
            word = re.match(r"[(]?([\w]+)", cell)
            if cell.startswith("margin_cells"):
                found += cells("margin_cells")
            elif cell == "[]" or cell.startswith("map "):
                break
            else:
                found += GROUPS.get(word[1]) or [CELLS.get(word[1], "text")]
        return found

    return cells


def kinds(tables):
    """What the columns of each table hold, over all of its rows."""
    cells, found = definitions(), {}
    for key, columns in tables.items():
        rows = [cells(name) for name in ROWS.get(key, [])]
        found[key] = [joined({row[i] if i < len(row) else "?" for row in rows}) for i in range(len(columns))]
    return found


def joined(several):
    """What holds one of several kinds."""
    plain = {it.replace("_or_none", "") for it in several} - {"none"}
    may_lack = any(it == "none" or it.endswith("_or_none") for it in several)
    it = plain.pop() if len(plain) == 1 else "?"
    return it + "_or_none" if may_lack and it not in ("decimal", "fraction", "divisor") else "change_or_none" if it == "change" else it


def kind_of(entry):
    """The kind of what the schema says of a column."""
    if "$ref" in entry:
        return entry["$ref"].rsplit("/", 1)[1]
    return "flag" if entry.get("type") == "boolean" else "text"


def schema():
    return json.loads(SCHEMA.read_text(encoding="utf-8"))


def schema_columns():
    tables = schema()["properties"]["tables"]["properties"]
    return {key: table["items"]["required"] if list(table["items"]["properties"]) == table["items"]["required"] else [] for key, table in tables.items()}


def schema_kinds():
    tables = schema()["properties"]["tables"]["properties"]
    return {key: [kind_of(it) for it in table["items"]["properties"].values()] for key, table in tables.items()}


def write_schema(tables):
    """The tables of the schema, in the order in which they stand there, with the columns of the sheets."""
    told, wanted = schema(), kinds(tables)
    stand = told["properties"]["tables"]["properties"]
    for key in [*stand, *(it for it in tables if it not in stand)]:
        items = stand.setdefault(key, {"type": "array", "items": {"type": "object", "additionalProperties": False}})["items"]
        old = items.get("properties", {})
        plain = {column: {"type": "boolean"} if kind == "flag" else {"$ref": "#/$defs/" + kind} for column, kind in zip(tables[key], wanted[key])}
        columns = {column: old[column] if column in old and kind_of(old[column]) == kind_of(it) else it for column, it in plain.items()}
        stand[key]["items"] = {"type": "object", "properties": columns, "required": list(columns), "additionalProperties": items["additionalProperties"]}
    SCHEMA.write_text(json.dumps(told, ensure_ascii=False, indent=1) + "\n", encoding="utf-8")


def python():
    """The fields of the rows that the package gives of a table, with their types."""
    body = ast.parse((TOP / "python" / "seatlaw" / "reports.py").read_text(encoding="utf-8")).body
    fields = {it.name: {row.target.id: ast.unparse(row.annotation) for row in it.body if isinstance(row, ast.AnnAssign)} for it in body if isinstance(it, ast.ClassDef)}
    rows = next(it.value for it in body if isinstance(it, ast.Assign) and it.targets[0].id == "ROWS")
    return {key.value: fields[value.id] for key, value in zip(rows.keys, rows.values)}


def page():
    """The columns that the page of examples names: it leaves out the long names and the exact fractions."""
    text = (EXAMPLES / "report.md").read_text(encoding="utf-8")
    rows = re.findall(r"^\| [^|]+ \| `(\w+)` \| (.*) \|$", text[text.index("| in text | key | columns |"):], re.M)
    return {key: re.findall(r"`(\w+)`", columns) for key, columns in rows}


def is_named(column):
    return not column.endswith(("_name", "_exact"))


def main():
    tables, wrong = sheets(), []
    if "--write" in sys.argv:
        write_schema(tables)
    told = {"docs/report.schema.json": (schema_columns(), None), "python/seatlaw/reports.py": ({key: list(fields) for key, fields in python().items()}, None), "examples/report.md": (page(), is_named)}
    for where, (others, part) in told.items():
        for key, columns in others.items():
            wanted = list(filter(part, tables.get(key, []))) if part else tables.get(key, [])
            if columns != wanted:
                wrong.append("%s: %s has %s, not %s" % (where, key, ", ".join(columns), ", ".join(wanted)))
        if "python" not in where:
            wrong += ["%s: %s is missing" % (where, key) for key in tables if key not in others]
    for key, found in kinds(tables).items():
        for column, kind, said in zip(tables[key], found, schema_kinds().get(key, [])):
            if kind != said:
                wrong.append("docs/report.schema.json: %s of %s is %s, and the schema says %s" % (column, key, kind, said))
        for column, kind, said in zip(tables[key], found, python().get(key, {}).values()):
            if TYPES[kind] != said:
                wrong.append("python/seatlaw/reports.py: %s of %s is %s, and its type is %s" % (column, key, TYPES[kind], said))
    print("\n".join([*wrong, "%d tables, %d things wrong" % (len(tables), len(wrong))]))
    return 1 if wrong else 0


if __name__ == "__main__":
    sys.exit(main())
