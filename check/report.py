#!/usr/bin/env python3
"""Tries the commands that report on all examples: JSON against docs/report.schema.json, CSV by the csv module, HTML by the html module and against
Markdown, text within 100 columns of a terminal, and the totals against `count` and `steps`. Not part of the gate.

    python3 check/report.py [PROGRAM]
"""
import csv
import fractions
import html.parser
import io
import json
import os
import pathlib
import re
import subprocess
import sys
import unicodedata

sys.path.append(str(pathlib.Path(__file__).resolve().parents[1] / "tools"))
from repository import PROGRAM, TOP, statutes  # noqa: E402

LAWS = ["@" + name for name in statutes()]
RETURNS = [
    "examples/first-count/returns.csv",
    "examples/covered/returns.csv",
    "examples/six-laws/returns.csv",
    "examples/growing-house/returns.csv",
    "examples/vacant/returns.csv",
    "examples/elections/2005.csv",
    "examples/elections/2009.csv",
    "examples/elections/2013.csv",
    "examples/elections/2025.csv",
]
OTHERS = [
    ("examples/first-count/book.law", "examples/first-count/returns.csv"),
    ("examples/tie/book.law", "examples/tie/returns.csv"),
    ("examples/tie/book.law", "examples/tie/drawn.csv"),
]
NAMES = "examples/elections/names.csv"
TYPES = {
    "object": lambda v: isinstance(v, dict),
    "array": lambda v: isinstance(v, list),
    "string": lambda v: isinstance(v, str),
    "integer": lambda v: isinstance(v, int) and not isinstance(v, bool),
    "boolean": lambda v: isinstance(v, bool),
    "null": lambda v: v is None,
}
SCHEMA = json.loads((TOP / "docs" / "report.schema.json").read_text(encoding="utf-8"))
program = os.path.abspath(sys.argv[1]) if len(sys.argv) > 1 else PROGRAM
failures = []
tried = 0


def run(*words):
    done = subprocess.run([program, *words], cwd=TOP, capture_output=True)
    return done.returncode, done.stdout.decode("utf-8")


def check(holds, what):
    global tried
    tried += 1
    if not holds:
        failures.append(what)


def fits(value, schema, where):
    """The words of JSON Schema that docs/report.schema.json uses."""
    if "$ref" in schema:
        return fits(value, SCHEMA["$defs"][schema["$ref"].split("/")[-1]], where)
    kinds = schema.get("type", [])
    kinds = [kinds] if isinstance(kinds, str) else kinds
    if kinds and not any(TYPES[kind](value) for kind in kinds):
        return [f"{where}: {value!r} is no {kinds}"]
    if "enum" in schema and value not in schema["enum"]:
        return [f"{where}: {value!r} is not among {schema['enum']}"]
    if "const" in schema and value != schema["const"]:
        return [f"{where}: {value!r} is not {schema['const']}"]
    most = schema.get("maxProperties", schema.get("maxItems"))
    if isinstance(value, (dict, list)) and not schema.get("minItems", 0) <= len(value) <= (len(value) if most is None else most):
        return [f"{where}: has {len(value)} members"]
    if "minimum" in schema and isinstance(value, int) and value < schema["minimum"]:
        return [f"{where}: {value!r} is too small"]
    if "pattern" in schema and isinstance(value, str) and not re.search(schema["pattern"], value):
        return [f"{where}: {value!r} has another form"]
    wrong = []
    for each in schema.get("allOf", []):
        if not fits(value, each["if"], where):
            wrong += fits(value, each["then"], where)
    if isinstance(value, dict):
        allowed = schema.get("propertyNames", {}).get("enum", value)
        wrong += [f"{where}: {name} is no name for it" for name in value if name not in allowed]
        known = schema.get("properties", {})
        wrong += [f"{where}: {name} is missing" for name in schema.get("required", []) if name not in value]
        for name, member in value.items():
            rest = schema.get("additionalProperties", {})
            if name not in known and rest is False:
                wrong.append(f"{where}: {name} is not known")
            else:
                wrong += fits(member, known.get(name, rest), f"{where}.{name}")
    if isinstance(value, list):
        for place, item in enumerate(value):
            wrong += fits(item, schema.get("items", {}), f"{where}[{place}]")
    return wrong


def width(text):
    wide = 0
    for character in text:
        if unicodedata.combining(character):
            continue
        wide += 2 if unicodedata.east_asian_width(character) in "WF" else 1
    return wide


class Page(html.parser.HTMLParser):
    """The headings of a page of HTML, and the rows of each of its tables."""

    def __init__(self, text):
        super().__init__()
        self.titles, self.tables, self.into = [], [], None
        self.feed(text)

    def handle_starttag(self, tag, attributes):
        if tag == "h2":
            self.into = self.titles
        elif tag == "table":
            self.tables.append([])
        elif tag == "tr":
            self.tables[-1].append([])
        elif tag in ("th", "td"):
            self.into = self.tables[-1][-1]
        if tag in ("h2", "th", "td"):
            self.into.append("")

    def handle_endtag(self, tag):
        if tag in ("h2", "th", "td"):
            self.into = None

    def handle_data(self, data):
        if self.into is not None:
            self.into[-1] += data


def plain(text):
    """A text of Markdown without its backslashes."""
    return re.sub(r"\\(.)", r"\1", text)


def markdown(text):
    """The headings of a text of Markdown, and the rows of each of its tables."""
    titles, tables = [], []
    for line in text.splitlines():
        if line.startswith("## "):
            titles.append(plain(line[3:]))
            tables.append([])
        elif line.startswith("| "):
            tables[-1].append([plain(cell[1:-1]) for cell in re.findall(r"((?:[^|\\]|\\.)*)\|", line[1:])])
    return titles, tables


def check_pages(line, words, status, text):
    """Markdown and HTML have the same tables, those of the text; or the line of a refusal."""
    status_markdown, text_markdown = run(*words, "--markdown")
    status_html, text_html = run(*words, "--html")
    check(status == status_markdown == status_html, f"{line}: statuses differ")
    if text.startswith("refused "):
        check(text == text_markdown == text_html, f"{line}: refusals differ")
        return
    page = Page(text_html)
    check((page.titles, page.tables) == markdown(text_markdown), f"{line}: Markdown and HTML differ")
    blocks = [block.splitlines() for block in text.split("\n\n") if block and not block.startswith("fault ")]
    told = [(block[0], len(block) - 1) for block in blocks]
    check(told == [(title, len(table)) for title, table in zip(page.titles, page.tables)], f"{line}: text and HTML differ")


def forms(*words):
    """All forms of a command, each by itself; and its JSON, if there is one."""
    line = " ".join(words)
    status, text = run(*words)
    refused = text.startswith("refused ")
    rows = text.splitlines()[1:] if text.startswith("fault ") else text.splitlines()
    tables = [row for row in rows if "  " in row.strip()]  # a sentence on a fault is as long as it is
    check(all(width(row) <= 100 for row in tables), f"{line}: wider than 100 columns")
    status_json, text_json = run(*words, "--json")
    status_csv, text_csv = run(*words, "--csv")
    check(status == status_json == status_csv, f"{line}: statuses differ")
    check_pages(line, words, status, text)
    report = json.loads(text_json)
    for wrong in fits(report, SCHEMA, line)[:5]:
        check(False, wrong)
    if refused:
        check(text == text_csv == report["fault"] + "\n", f"{line}: refusals differ")
        return status, text, None
    command = " ".join(words[:2]) if words[1] == "--short" else words[0]
    check(report["command"] == command and report["status"] == status, f"{line}: command or status")
    tables = {}
    for row in csv.reader(io.StringIO(text_csv)):
        tables.setdefault(row[0], []).append(row[1:])
    check(set(tables) == set(report["tables"]), f"{line}: tables differ")
    for key, rows in tables.items():
        heads, cells = rows[0], rows[1:]
        told = report["tables"][key]
        check(len(cells) == len(told), f"{line}: {key}: rows differ")
        for row, members in zip(cells, told):
            same = all(cell == shown(members[head]) for head, cell in zip(heads, row))
            check(len(row) == len(heads) and same, f"{line}: {key}: {row} is not {members}")
    return status, text, report


def shown(value):
    if value is None:
        return ""
    if isinstance(value, bool):
        return "yes" if value else "no"
    if isinstance(value, list):
        return " ".join(value)
    return str(value)


def counted(book, returns):
    """What count says, as the numbers of a report: the total, parties, lists, vacant seats, singles and open winners."""
    status, text = run("count", book, returns)
    said = {"party": {}, "list": {}, "vacant": {}, "single": [], "open": [], "total": None}
    for line in text.splitlines():
        word, *rest = line.split(" ")
        if word == "total":
            said["total"] = int(rest[0])
        elif word == "party":
            said["party"][rest[0]] = (int(rest[1]), int(rest[2]))
        elif word == "list":
            said["list"][tuple(rest[:2])] = (int(rest[2]), int(rest[3]))
        elif word == "vacant":
            said["vacant"][tuple(rest[:2])] = int(rest[2])
        elif word in ("single", "open"):
            said[word].append(rest[0])
    return status, text, said


def lines_of(tables):
    """The lines that `count`, or `steps`, has for the rows of its tables, kind by kind."""
    lots = {True: " lot", False: ""}
    forms = [
        ("steps", "seat {stage} {scope} {entry} {number} {step} {mark}", lambda row: True),
        ("bounds", "bounds {stage} {scope} {last} {next}", lambda row: True),
        ("law", "total {seats}", lambda row: True),
        ("parties", "party {party} {seats} {direct}", lambda row: True),
        ("lists", "list {land} {party} {seats} {direct}", lambda row: True),
        ("lists", "vacant {land} {party} {vacant}", lambda row: row["vacant"]),
        ("singles", "single {constituency}", lambda row: True),
        ("open", "open {constituency}", lambda row: True),
    ]
    return [form.format(**row) + lots[key == "bounds" and row["lot"]] for key, form, has in forms for row in tables.get(key, []) if has(row)]


def check_lines(command, book, returns):
    """The tables of `count`, or of `steps`, in JSON are its lines."""
    line = f"{command} {book} {returns}"
    status, text = run(command, book, returns)
    status_json, text_json = run(command, book, returns, "--json")
    told = json.loads(text_json)
    for wrong in fits(told, SCHEMA, line)[:5]:
        check(False, wrong)
    check((status, command) == (status_json, told["command"]) and told["status"] == status, f"{line}: statuses or commands differ")
    if status:
        check(told["fault"] + "\n" == text, f"{line}: faults differ")
    else:
        kinds = ["seat", "bounds", "total", "party", "list", "vacant", "single", "open"]
        lines = sorted(text.splitlines(), key=lambda row: kinds.index(row.split(" ")[0]))
        check(lines_of(told["tables"]) == lines, f"{line}: lines differ")


def check_totals(book, returns, report):
    """The seats of a report are those of count."""
    line = f"{book} {returns}"
    _, _, said = counted(book, returns)
    tables = report["tables"]
    check(tables["law"][0]["seats"] == said["total"], f"{line}: total")
    parties = {row["party"]: (row["seats"], row["direct"]) for row in tables["parties"]}
    check(parties == said["party"], f"{line}: parties {parties} {said['party']}")
    lists = {(row["land"], row["party"]): row for row in tables["lists"]}
    for place, (seats, direct) in said["list"].items():
        row = lists.get(place)
        if row is None:
            check((seats, direct) == (0, 0), f"{line}: list {place} is missing")
        else:
            check((row["seats"], row["direct"]) == (seats, direct), f"{line}: list {place}")
            check(row["vacant"] == said["vacant"].get(place, 0), f"{line}: vacant {place}")
    check([row["constituency"] for row in tables["singles"]] == said["single"], f"{line}: singles")
    check([row["constituency"] for row in tables["open"]] == said["open"], f"{line}: open")


def check_press(book, returns):
    """The page for the press has the seats of count, the parties with the most first, and no row of zeros."""
    line = f"{book} {returns} --short"
    _, _, said = counted(book, returns)
    _, _, report = forms("report", "--short", book, returns)
    *rows, total = report["tables"]["press"]
    parties, others = [row for row in rows if row["party"]], [row for row in rows if not row["party"]]
    check(total["seats"] == said["total"], f"{line}: total")
    check(sum(row["seats"] for row in rows) == total["seats"], f"{line}: the rows do not sum to all")
    check(len(others) <= 1 and all(row["won"] for row in others), f"{line}: winners without a party {others}")
    told = {row["party"]: (row["seats"], row["direct"]) for row in parties}
    check(all(said["party"][party] == seats for party, seats in told.items()), f"{line}: parties {told}")
    check(all(party in told for party, (seats, _) in said["party"].items() if seats), f"{line}: a party is missing")
    check([row["seats"] for row in parties] == sorted((row["seats"] for row in parties), reverse=True), f"{line}: order")
    check(all(row["seats"] or row["won"] for row in parties), f"{line}: a row of zeros")
    for row in [*parties, total]:
        exact = fractions.Fraction(100 * row["valid"], total["valid"])
        check(row["percent"] == f"{int(exact * 10 + fractions.Fraction(1, 2)) / 10:.1f}", f"{line}: percent of {row['party']}")


def check_steps(book, returns, report):
    """The seats of each entry of a scope are the lines that steps has for it, and the divisor lies between the bounds."""
    line = f"{book} {returns}"
    _, text = run("steps", book, returns)
    seats, bounds = {}, {}
    for row in text.splitlines():
        words = row.split(" ")
        if words[0] not in ("seat", "bounds"):
            continue
        parts = {"all": 1, "land": 2, "party": 2, "list": 3}[words[2]]
        scope = (words[1], " ".join(words[2:2 + parts]))
        rest = words[2 + parts:]
        if words[0] == "seat":
            seats[scope + (rest[0],)] = seats.get(scope + (rest[0],), 0) + 1
        else:
            bounds[scope] = rest
    entries = {}
    for row in report["tables"].get("entries", []):
        entries[(row["stage"], row["scope"], row["entry"])] = row
    told = {place: row["seats"] for place, row in entries.items() if row["seats"] > 0}
    check(told == seats, f"{line}: seats by scope {told} {seats}")
    for row in report["tables"]["scopes"]:
        scope = (row["stage"], row["scope"])
        if scope in bounds:
            check(row["lot"] == (bounds[scope][-1] == "lot"), f"{line}: a lot in {scope}")
            if row["lot"]:
                check_border(line, row, bounds[scope])
            elif row["divisor"] is not None:
                check_divisor(line, row, bounds[scope])


def parts(fraction):
    num, den = fraction.split("/")
    return int(num), int(den)


def check_divisor(line, row, rest):
    """The divisor, in units of its last place, is strictly between the two quotients."""
    whole, _, decimals = row["divisor"].partition(".")
    unit = 10 ** len(decimals)
    divisor = int(whole + decimals)
    if rest[0] != "inf":
        num, den = parts(rest[0])
        check(divisor * den < num * unit, f"{line}: the divisor is above the last quotient")
    num, den = parts(rest[1])
    check(divisor * den > num * unit, f"{line}: the divisor is below the next quotient")


def check_border(line, row, rest):
    """The divisor is the quotient that the two claims have in common, and nothing where they are infinite."""
    shown = None if rest[0] == "inf" else str(fractions.Fraction(*parts(rest[0])))
    check(row["divisor"] == shown, f"{line}: the divisor of equal claims")


def check_stages(book, returns):
    """The columns of stages are those that stage shows."""
    _, _, report = forms("stages", book, returns)
    if report is None or report["status"] != 0:
        return
    for stage in report["tables"]["stages"]:
        _, text = run("stage", book, returns, stage["stage"])
        cells = [row for row in report["tables"]["cells"] if row["stage"] == stage["stage"]]
        told = "".join(f"{row['entry']} {row['value']}\n" for row in cells)
        check(told == text, f"{book} {returns}: stage {stage['stage']}")


def check_book(book, returns):
    status, text, _ = counted(book, returns)
    report_status, report_text, report = forms("report", book, returns)
    check(status == report_status, f"{book} {returns}: status")
    if status == 2:
        check(text == report_text, f"{book} {returns}: refusal")
    elif status == 3:
        check(report_text.startswith(text), f"{book} {returns}: fault")
        check(report["fault"] + "\n" == text, f"{book} {returns}: fault in JSON")
    else:
        check_totals(book, returns, report)
        check_steps(book, returns, report)
        check_press(book, returns)
    check_stages(book, returns)
    check_lines("count", book, returns)
    check_lines("steps", book, returns)
    forms("totals", returns, book)


def check_error(*words):
    """An error has nothing on standard output, and as JSON on standard error a text that fits the schema."""
    line = " ".join(words)
    done = subprocess.run([program, *words, "--json"], cwd=TOP, capture_output=True)
    check(done.returncode == 5 and not done.stdout, f"{line}: an error")
    for wrong in fits(json.loads(done.stderr), SCHEMA, line)[:5]:
        check(False, wrong)


def check_election(book, returns, divisor, seats, quotients):
    """A divisor, seats and quotients that were worked out by hand."""
    _, _, report = forms("report", book, returns, "--names", NAMES)
    scope = [row for row in report["tables"]["scopes"] if (row["stage"], row["scope"]) == ("upper", "all")][0]
    check(scope["divisor"] == divisor or scope["quota"] == divisor, f"{returns}: divisor {scope}")
    entries = [row for row in report["tables"]["entries"] if row["stage"] == "upper"]
    check({row["entry"]: row["seats"] for row in entries} == seats, f"{returns}: seats")
    for name, quotient in quotients.items():
        row = [row for row in entries if row["entry"] == name][0]
        check(row["quotient"] == quotient, f"{returns}: {name} {row['quotient']}")
    return entries


def main():
    for returns in RETURNS:
        for law in LAWS:
            check_book(law, returns)
        forms("totals", returns)
        forms("compare", returns)
        forms("compare", returns, "@2008", "@2023", "--names", NAMES)
    for book, returns in OTHERS:
        check_book(book, returns)
    check_book("@2099", RETURNS[0])
    check_book("examples/tie/book.law", "examples/tie/book.law")
    check_error("report", "@2023-order", "missing.csv")
    check_error("steps", "@2023-order", "missing.csv")
    check_error("totals", RETURNS[0], "--names", "missing.csv")
    check_election(
        "@1985", "examples/elections/2005.csv", "75970.5317",
        {"SPD": 213, "CDU": 173, "CSU": 46, "GRUENE": 51, "FDP": 61, "LINKE": 54},
        {"SPD": "213.1703", "CSU": "45.9955"},
    )
    check_election(
        "@2008", "examples/elections/2009.csv", "68195",
        {"CDU": 173, "SPD": 146, "FDP": 93, "LINKE": 76, "GRUENE": 68, "CSU": 42}, {"CDU": "173.4478", "CSU": "41.5021"},
    )
    check_election(
        "@2013", "examples/elections/2013.csv", "58410",
        {"CDU": 255, "SPD": 193, "LINKE": 64, "GRUENE": 63, "CSU": 56}, {"CDU": "255.4678", "CSU": "55.5310"},
    )
    entries = check_election(
        "@2023-order", "examples/elections/2025.csv", "68100",
        {"CDU": 164, "AFD": 152, "SPD": 120, "GRUENE": 85, "LINKE": 64, "CSU": 44, "SSW": 1}, {"CDU": "164.4107"},
    )
    check([row["missing"] for row in entries if row["entry"] == "CDU"] == [12422], "the CDU lacks 12,422 votes")
    for failure in failures[:40]:
        print(failure)
    print(f"{tried - len(failures)} of {tried} checks passed")
    return 1 if failures else 0


if __name__ == "__main__":
    sys.exit(main())
