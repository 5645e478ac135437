"""Pictures and tables for notebooks: the house as a half circle (SVG), and rows as HTML."""
import html
import math
from typing import Any, Dict, List, Sequence, Tuple

from .tables import PartySeats, Table

# Colours of parties that have one, by their names in the returns, and those for all others.
PARTIES = {
    "CDU": "#2b2b2b", "CSU": "#5a6b7a", "SPD": "#d4133b", "GRUENE": "#3f8f29", "FDP": "#f0c300", "LINKE": "#9b2f78", "AFD": "#2f8fd0",
    "BSW": "#7a2452", "SSW": "#28519e", "FW": "#e07b00", "Reds": "#d4133b", "Blues": "#2f6fd0", "Greens": "#3f8f29", "Yellows": "#e0b400",
}
OTHERS = ("#4c78a8", "#e45756", "#54a24b", "#b279a2", "#eeca3b", "#72b7b2", "#9d755d", "#f58518", "#79706e", "#ff9da6")
SINGLE = "#bbbbbb"
WIDTH, HEIGHT, INNER = 520, 280, 0.38


def colours(parties: Sequence[str], chosen: Dict[str, str]) -> Dict[str, str]:
    """A colour for each party."""
    others = iter(range(len(parties)))
    return {party: chosen.get(party) or PARTIES.get(party) or OTHERS[next(others) % len(OTHERS)] for party in parties}


def _rows(seats: int) -> List[Tuple[float, int]]:
    """The rows of a half circle for so many seats: the radius of each, and how many seats it has."""
    count = max(1, round(math.sqrt(seats / 3.2)))
    radii = [INNER + (1 - INNER) * (i + 0.5) / count for i in range(count)]
    whole, rows, left = sum(radii), [], seats
    for i, radius in enumerate(radii):
        taken = left if i == count - 1 else min(left, round(seats * radius / whole))
        rows.append((radius, taken))
        left -= taken
    return rows


def _places(seats: int) -> List[Tuple[float, float]]:
    """Places of seats in a half circle of radius 1, from left to right."""
    found = []
    for radius, taken in _rows(seats):
        for i in range(taken):
            turn = math.pi * (i + 0.5) / taken
            found.append((turn, radius))
    return [(-radius * math.cos(turn), radius * math.sin(turn)) for turn, radius in sorted(found)]


def house(table: Table, chosen: Dict[str, str]) -> str:
    """The house as a half circle of dots, a party beside the other in the order of the table, and singles of no party at the right."""
    colour = colours([row.party for row in table.parties], chosen)
    dots = [(row.party, colour[row.party]) for row in table.parties for _ in range(row.seats)]
    dots += [("without a party", SINGLE)] * (table.total - len(dots))
    scale, size = WIDTH / 2 - 12, 0.62 * math.sqrt(math.pi * (1 - INNER**2) / 2 / max(1, len(dots))) * (WIDTH / 2 - 12)
    parts = ['<svg xmlns="http://www.w3.org/2000/svg" viewBox="0 0 %d %d" width="%d" role="img">' % (WIDTH, HEIGHT, WIDTH)]
    parts.append("<title>%s</title>" % html.escape(", ".join("%s %d" % row[:2] for row in table.parties if row.seats)))
    for (x, y), (party, fill) in zip(_places(len(dots)), dots):
        at = WIDTH / 2 + scale * x, HEIGHT - 14 - scale * y
        parts.append('<circle cx="%.1f" cy="%.1f" r="%.1f" fill="%s"><title>%s</title></circle>' % (*at, min(size * 0.75, 12), fill, html.escape(party)))
    parts.append('<text x="%d" y="%d" text-anchor="middle" font-family="sans-serif" font-size="30">%d</text></svg>' % (WIDTH // 2, HEIGHT - 16, table.total))
    return "\n".join(parts)


def _cell(value: Any) -> str:
    """A cell of a table: nothing stands for None, names stand one after another, and numbers at the right."""
    value = " ".join(value) if isinstance(value, tuple) else value
    side = "left" if isinstance(value, str) else "right"
    return '<td style="text-align:%s">%s</td>' % (side, "" if value is None else html.escape(str(value)))


def table_of(rows: Sequence[Any], kind: Any) -> str:
    """Rows as an HTML table."""
    head = "".join("<th>%s</th>" % html.escape(name.replace("_", " ")) for name in kind._fields)
    body = "".join("<tr>%s</tr>" % "".join(map(_cell, row)) for row in rows)
    return "<table><thead><tr>%s</tr></thead><tbody>%s</tbody></table>" % (head, body)


def page_of(table: Table) -> str:
    return house(table, {}) + table_of(table.parties, PartySeats)


def report_of(report: Any) -> str:
    """The tables of a report that have rows."""
    from . import reports

    kinds = {key: kind for key, kind in reports.ROWS.items() if getattr(report, key, None)}
    return "".join("<h4>%s</h4>%s" % (html.escape(key), table_of(getattr(report, key), kind)) for key, kind in kinds.items() if key != "totals")
