"""Large rulebooks."""


def expression(leaves):
    """An expression of 2 * leaves - 1 parts: differences of List columns, as flat as can be."""
    level = ["winners"] * leaves
    while len(level) > 1:
        pairs = ["less(%s, %s)" % (a, b) for a, b in zip(level[::2], level[1::2])]
        level = pairs + ([level[-1]] if len(level) % 2 else [])
    return level[0]


def stages():
    """32 stages of 64 expressions each."""
    return "".join("stage s%02d = sum(%s, all);\n" % (i, expression(32)) for i in range(32))


def book(size, stages):
    """A book of that many bytes: these stages, and as many conditions as there is room for."""
    front, back = 'rulebook 1; law "benchmark"; house 4000;\neligible all', ";\n" + stages + "seats winners keep;\n"
    room = size - len(front) - len(back)
    text = front + " or all" * (room // 7) + " " * (room % 7) + back
    assert len(text) == size, len(text)
    return text
