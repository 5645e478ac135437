#!/usr/bin/env python3
"""Counts many random elections in chunks with Dask, on this machine or on a cluster (docs/simulations.md).

    cluster.py [--workers N | --scheduler ADDRESS] [--draws N] [--chunk N] [--seed S] [--sample N] [--form npy|csv|parquet] BOOK RETURNS FOLDER

BOOK is a file, or a statute as @2023. FOLDER gets a file for each chunk, with a row for each election: the status of its count, the total, and
the seats of each party. A file that is there is not made again, so a run that was stopped goes on where it was. Each chunk has a seed of its own,
from S and its number: what a chunk holds does not depend on the workers, nor on which of them makes it. Workers must see the same FOLDER and
have this package. The last line has the checksum of all chunks. It needs Debian's packages python3-dask and python3-distributed.
"""
import argparse
import hashlib
import itertools
import os
import pathlib
import time

import seatlaw
from seatlaw.chunked import count_chunk


def checksum(paths):
    whole = hashlib.sha256()
    for path in paths:
        whole.update(path.read_bytes())
    return whole.hexdigest()


def client_of(args):
    from distributed import Client, LocalCluster

    if args.scheduler:
        return Client(args.scheduler)
    return Client(LocalCluster(n_workers=args.workers, threads_per_worker=1, dashboard_address=None))


def counted(client, args, todo):
    """Has the workers count the chunks that are not there, a few of them waiting for each worker, and says each ten seconds how far they are."""
    from distributed import as_completed

    book = seatlaw.Rulebook.statute(args.book[1:]) if args.book.startswith("@") else seatlaw.Rulebook.from_file(args.book)
    inputs = book.data, seatlaw.Returns.from_file(args.returns).data, seatlaw.Multinomial(args.sample), args.seed
    ask = lambda chunk: client.submit(count_chunk, *inputs, *chunk, args.form, pure=False, retries=3)  # noqa: E731
    left = iter(todo)
    waiting = as_completed([ask(chunk) for chunk in itertools.islice(left, 4 * max(1, len(client.nthreads())))])
    done, begun, told = 0, time.monotonic(), time.monotonic()
    for future in waiting:
        done += future.result()
        for chunk in itertools.islice(left, 1):
            waiting.add(ask(chunk))
        if time.monotonic() - told > 10:
            told = time.monotonic()
            print("%d counts, %.0f a second" % (done, done / (told - begun)), flush=True)
    return done, time.monotonic() - begun


def main():
    parser = argparse.ArgumentParser(usage=__doc__.split("\n\n")[1].strip())
    parser.add_argument("--workers", type=int, default=os.cpu_count())
    parser.add_argument("--scheduler")
    parser.add_argument("--draws", type=int, default=10_000_000)
    parser.add_argument("--chunk", type=int, default=10_000)
    parser.add_argument("--seed", type=int, default=1)
    parser.add_argument("--sample", type=int, default=2000)
    parser.add_argument("--form", choices=("npy", "csv", "parquet"), default="npy")
    parser.add_argument("book")
    parser.add_argument("returns")
    parser.add_argument("folder", type=pathlib.Path)
    args = parser.parse_args()
    args.folder.mkdir(parents=True, exist_ok=True)
    folder = args.folder.resolve()
    chunks = [(number, size, folder / ("chunk-%06d.%s" % (number, args.form))) for number, size in seatlaw.chunks(args.draws, args.chunk)]
    todo = [(number, size, str(path)) for number, size, path in chunks if not path.exists()]
    print("%d of %d chunks are to be counted" % (len(todo), len(chunks)), flush=True)
    if todo:
        with client_of(args) as client:
            done, seconds = counted(client, args, todo)
        print("%d counts in %.1f s, %.0f a second" % (done, seconds, done / seconds))
    print("sha256 of the chunks: %s" % checksum([path for _, _, path in chunks]))


if __name__ == "__main__":
    main()
