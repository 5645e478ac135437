"""Large returns."""

LANDS = ["Land%08d" % i for i in range(64)]
PARTIES = ["Party%07d" % i for i in range(256)]


def records():
    """As many records of each kind as there may be, nearly all fields quoted."""
    yield '"house",,,"4000",,'
    for land in LANDS:
        yield '"land",%s,,"100000000",,' % land
    for party in PARTIES:
        yield '"party",,%s,"1",,' % party
    for land in LANDS:
        for party in PARTIES:
            yield '"list","%s","%s","000100000000","000099999999","4000"' % (land, party)
    for i in range(2000):
        yield '"win","%s","%s","win%08d","000049999999","000100000000"' % (LANDS[i % 64], PARTIES[i % 256], i)
    for i in range(4000):
        yield '"lot","%s","%s","stage%d",,' % (LANDS[i % 64], PARTIES[i // 64 % 256], i // 16384)


def returns(size):
    """Returns of that many bytes: as many of these records as there is room for, and empty lines."""
    kept, total = ["kind2,land,party,a,b,c"], 23
    for line in records():
        if total + len(line) + 1 > size:
            break
        kept.append(line)
        total += len(line) + 1
    return "\n".join(kept) + "\n" * (size - total + 1)
