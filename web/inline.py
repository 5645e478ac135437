#!/usr/bin/env python3
"""Puts the module, the style, the scripts and the examples into one HTML file.

    python3 web/inline.py MODULE TO

web/page/index.html has a line `<!-- NAME -->` for each part. A policy in the file lets the browser run these scripts alone, and make no
request at all. The module and the examples are packed by deflate. A module that lacks what the page calls is refused.
"""
import base64
import hashlib
import json
import pathlib
import re
import sys
import zlib

sys.path.append(str(pathlib.Path(__file__).resolve().parents[1] / "tools"))
from repository import TOP, statutes  # noqa: E402

PAGE = TOP / "web" / "page"
ELECTIONS = TOP / "examples" / "elections"
MOST = 1_500_000  # bytes of the file
DESK = ("desk.js",)
WORKER = (*DESK, "worker.js")
SCRIPTS = (
    "texts.js", "language.js", *DESK, "calls.js", "outputs.js", "returns.js", "names.js", "colours.js", "parts.js", "explanations.js", "answers.js", "places.js",
    "house.js", "images.js", "tables.js", "comparison.js", "order.js", "steps.js", "margins.js", "ties.js", "changes.js", "records.js", "files.js", "sources.js",
    "inputs.js", "saving.js", "results.js", "main.js",
)
NEEDED = {"memory", "page_room", "page_free", "page_ask"}


def number(code, at):
    """A number of a module, in groups of seven bits from the low ones on, and what is after it."""
    value = shift = 0
    while True:
        byte = code[at]
        value |= (byte & 127) << shift
        at, shift = at + 1, shift + 7
        if byte < 128:
            return value, at


def exports(code):
    """The names that a module exports: they stand in its section 7."""
    assert code[:4] == b"\0asm", "no WebAssembly module"
    names, at = set(), 8
    while at < len(code):
        kind, (size, begin) = code[at], number(code, at + 1)
        at = begin + size
        if kind == 7:
            count, place = number(code, begin)
            for _ in range(count):
                length, place = number(code, place)
                names.add(code[place:place + length].decode())
                _, place = number(code, place + length + 1)
    return names


def joined(names):
    return "\n" + "\n".join((PAGE / name).read_text().strip() for name in names) + "\n"


def sum_of(text):
    return "'sha256-%s'" % base64.b64encode(hashlib.sha256(text.encode()).digest()).decode()


def packed(data):
    return base64.b64encode(zlib.compress(data, 9)).decode()


def policy(script, style):
    rules = (
        "default-src 'none'",
        "script-src %s 'wasm-unsafe-eval'" % sum_of(script),
        "worker-src blob:",
        "style-src %s" % sum_of(style),
        "img-src data:",
        "form-action 'none'",
        "base-uri 'none'",
    )
    return '<meta http-equiv="Content-Security-Policy" content="%s">' % "; ".join(rules)


def version():
    """The version of the program, which is made of the same sources."""
    return re.search(r'VERSION: &str = "([^"]+)"', (TOP / "crates" / "sl_explain_texts" / "src" / "program.rt").read_text())[1]


def examples():
    return json.dumps({path.name: path.read_text() for path in sorted(ELECTIONS.glob("20*.csv"))}, sort_keys=True).encode()


def main():
    module, to = sys.argv[1:]
    code = pathlib.Path(module).read_bytes()
    lacking = NEEDED - exports(code)
    if lacking:
        sys.exit("web/inline.py: the module %s lacks %s" % (module, ", ".join(sorted(lacking))))
    script, worker, style = joined(SCRIPTS), joined(WORKER), joined(("style.css",))
    for text in (script, worker):
        assert "</script" not in text
    parts = {
        "policy": policy(script, style),
        "style": "<style>%s</style>" % style,
        "module": '<script type="text/plain" id="module" data-version="%s" data-statutes="%s" data-sum="%s">%s</script>'
        % (version(), " ".join(statutes()), hashlib.sha256(code).hexdigest(), packed(code)),
        "worker": '<script type="text/plain" id="worker">%s</script>' % worker,
        "examples": '<script type="text/plain" id="examples">%s</script>' % packed(examples()),
        "scripts": "<script>%s</script>" % script,
    }
    page = (PAGE / "index.html").read_text()
    for name, text in parts.items():
        mark = "<!-- %s -->" % name
        assert page.count(mark) == 1, name
        page = page.replace(mark, text)
    if len(page.encode()) > MOST:
        sys.exit("web/inline.py: the page has %d bytes, more than %d" % (len(page.encode()), MOST))
    pathlib.Path(to).write_text(page)
    print("%s: %d bytes; the module has %d, and %d as it is packed" % (to, len(page.encode()), len(code), len(parts["module"])))


if __name__ == "__main__":
    main()
