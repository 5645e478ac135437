"""The code on a page: blocks that name their language, each with the block after it that has what it writes, if there is one."""
import pathlib
import re
import typing

FENCED = re.compile(r"^```(\w*)\n(.*?)^```$", re.M | re.S)


class Snippet(typing.NamedTuple):
    line: int
    language: str
    code: str
    wanted: typing.Optional[str]


def snippets(page, language=None):
    """The snippets of a page in a language. What a snippet writes stands in a block of no language, with blank lines alone between the two."""
    text = pathlib.Path(page).read_text()
    found = list(FENCED.finditer(text))
    for block, behind in zip(found, [*found[1:], None]):
        if not block[1] or language not in (None, block[1]):
            continue
        is_output = behind is not None and not behind[1] and not text[block.end():behind.start()].strip()
        yield Snippet(text[:block.start()].count("\n") + 1, block[1], block[2], behind[2] if is_output else None)
