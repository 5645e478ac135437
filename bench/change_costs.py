#!/usr/bin/env python3
"""How long one waits for the proof of a crate after a changed line: of a body, of a contract and of a definition.

    python3 bench/change_costs.py [CRATE ..]             the crates of CHANGES, or these alone

A change says the same in another way: a body and a definition name what they answer first, and a contract says its fact twice. So what it
reaches is proved again, as after any other change, and holds. A crate is checked as it stands first, over libraries that are built; what that
check keeps is put back after each change, and so is the file. Nothing else may run in the repository meanwhile. Of each check stand the
seconds that one waits, and after them, in parentheses, those of the processors.
"""
import pathlib
import resource
import shutil
import subprocess
import sys
import time

sys.path.append(str(pathlib.Path(__file__).resolve().parents[1] / "tools"))
from repository import CRATES  # noqa: E402

# Of a crate of each room that has code of its own, but the page: a body, a contract and a definition, as the file and what stands there once.
# None where proofs cite a clause by its name, so that it can't be said twice without a change there.
CHANGES = {
    "sl_prio": (
        ("src/peers.rt", "across(&top.ratio, &entry.ratio) == across(&entry.ratio, &top.ratio)"),
        ("src/prio.rt", "result ≡ length self.now"),
        ("specs/inner/Marks.antt", "find (have_index xs) lot"),
    ),
    "sl_lex": (
        ("src/scan.rt", "here.iter().take_while(|byte| is_word_byte(**byte)).count()"),
        ("src/scan.rt", "result ≡ is_word_byte byte"),
        ("specs/inner/Scan.antt", "is_ascii_alphanumeric b || b == 95"),
    ),
    "sl_returns": (
        ("src/header.rt", "cell(fields, column) == word"),
        ("src/header.rt", "result ≡ bytes_eq (cell (fields_of fields.now) column) word.now"),
        ("specs/Cells.antt", "nat_eq (length c) 0"),
    ),
    "sl_code_steps": (
        ("src/draws.rt", "if stage == self.stage { self.passed } else { 0 }"),
        ("src/cell_cursors.rt", "result ≡ self.now.party"),
        ("specs/inner/Stores.antt", "s.columns.items"),
    ),
    "sl_compile": (
        ("src/slots.rt", "FIRST_STAGE_SLOT + stage"),
        None,
        ("specs/Codes.antt", "all_facts few b.house.value"),
    ),
    "sl_count_texts": (
        ("src/bounds_form.rt", "first.stage == second.stage && first.scope == second.scope"),
        ("src/bounds_form.rt", "result ≡ is_one_scope first.now second.now"),
        ("specs/Orders.antt", "entry_key w.stage w.scope w.entry"),
    ),
    "sl_explain_books": (
        ("src/pieces.rt", "line_at(text, at).number"),
        ("src/pieces.rt", "result ≡ line_number text.now at"),
        ("specs/Further.antt", "if nat_le b.last.at at then clause.Last else stage_clause (stage_at at None b.stages)"),
    ),
    "sl_report_tables": (
        ("src/earlier.rt", "party_in(line).is_some() || is_other(line)"),
        ("src/earlier.rt", "result ≡ is_line line.now"),
        ("specs/Names.antt", "nat_eq (length cells) 2 && list_all is_utf8 cells"),
    ),
    "sl_terminal_commands": (
        ("src/reports.rt", "Ok(names_in(self.alloc, &read)?)"),
        None,
        ("specs/Sums.antt", "if is_refused then status.Refused else status.Done"),
    ),
}
# How each says the same in another way.
WAYS = ("{{ let answer = {}; answer }}", "({0}) × ({0})", "let same = {} in same")


def checked(folder):
    """Whether a crate is proved, the seconds that `rt check` takes, those of the processors, and what it says."""
    before, begin = resource.getrusage(resource.RUSAGE_CHILDREN).ru_utime, time.time()
    run = subprocess.run(["rt", "check"], cwd=folder, stdout=subprocess.PIPE, stderr=subprocess.STDOUT, text=True)
    took = time.time() - begin
    return run.returncode == 0, took, resource.getrusage(resource.RUSAGE_CHILDREN).ru_utime - before, run.stdout


def after(folder, file, said, way):
    """What a check takes after a change, from what an earlier check has kept."""
    kept, aside = folder / "out" / "incremental", folder / "out" / "incremental-aside"
    text = (folder / file).read_text()
    if text.count(said) != 1:
        return f"{file} has it {text.count(said)} times"
    shutil.copytree(kept, aside)
    try:
        (folder / file).write_text(text.replace(said, way.format(said)))
        is_proved, took, seconds, told = checked(folder)
    finally:
        (folder / file).write_text(text)
        shutil.rmtree(kept)
        aside.rename(kept)
    return f"{took:.0f} ({seconds:.0f})" + ("" if is_proved else " not proved: " + " ".join(told.split())[-300:])


def main(names):
    for name in names or CHANGES:
        folder = CRATES / name
        checked(folder)
        is_proved, took, seconds, told = checked(folder)
        if not is_proved:
            sys.exit(f"{name} is not proved as it stands: {told[-300:]}")
        print(f"{name}: unchanged {took:.0f} ({seconds:.0f})", flush=True)
        for change, way, what in zip(CHANGES[name], WAYS, ("body", "contract", "definition")):
            if change:
                print(f"    {what}: {after(folder, *change, way)}", flush=True)


if __name__ == "__main__":
    sys.exit(main(sys.argv[1:]))
