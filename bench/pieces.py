#!/usr/bin/env python3
"""Compares what `check` and `list` answer to an input that comes in pieces with what they answer to it from a file.

    bench/pieces.py PROGRAM FILE.. [runs=1000] [seed=1] [jobs=1]

Inputs are messages of the files, of docs/WORKED.md and of `make`, many of them damaged as bench/hostile.py damages
them. Each is cut at random places, and its pieces are written into a pipe, one as soon as the one before was taken. So
the program reads just these pieces, down to single octets. One input in twenty is of messages of more than 65,536 octets,
which `check` and `list` judge as they come. Output, note and status have to be those of the file. `runs`
counts the inputs that come in pieces. Each difference is a line. Needs Python 3.8 and Linux."""
import fcntl
import multiprocessing
import os
import random
import struct
import subprocess
import sys
import termios
import time

from hostile import TARGETS, messages_of, pool_of, stream_of

MOST_PIECES = 400


def cut(draw, data):
    """The octets in pieces: of one size, of any sizes up to one, or at a few places."""
    if not data:
        return []
    way = draw.choice(("one size", "any sizes", "few places"))
    if way == "few places":
        places = sorted(draw.randrange(len(data)) for _ in range(draw.randint(0, 6)))
        ends = [*places, len(data)]
        return [data[start:end] for start, end in zip([0, *places], ends) if start < end]
    most = max(draw.choice((1, 1, 2, 7, 8, 16, 40, 1000, 65_536)), len(data) // MOST_PIECES + 1)
    pieces, at = [], 0
    while at < len(data):
        size = most if way == "one size" else draw.randint(1, most)
        pieces.append(data[at:at + size])
        at += size
    return pieces


def is_taken(pipe):
    """Whether nothing is left in the pipe."""
    return struct.unpack("i", fcntl.ioctl(pipe, termios.FIONREAD, b"\0\0\0\0"))[0] == 0


def feed(child, pieces):
    """Writes each piece once the one before was taken, as far as they are taken."""
    pipe = child.stdin.fileno()
    try:
        for piece in pieces:
            os.write(pipe, piece)
            while not is_taken(pipe) and child.poll() is None:
                os.sched_yield()
    except BrokenPipeError:
        pass
    child.stdin.close()


def answer(program, word, pieces):
    """Output, note and status of a run over pieces."""
    child = subprocess.Popen([program, word], stdin=subprocess.PIPE, stdout=subprocess.PIPE, stderr=subprocess.PIPE)
    # What is written is short: some lines for each message.
    feed(child, pieces)
    output, note = child.stdout.read(), child.stderr.read()
    child.stdout.close()
    child.stderr.close()
    return output, note, child.wait()


def whole_answer(program, word, data):
    ran = subprocess.run([program, word], input=data, capture_output=True)
    return ran.stdout, ran.stderr, ran.returncode


def long_pool(program, paths):
    """Messages that are longer than one read: some of the files, and some that are made."""
    found = []
    for path in paths:
        with open(path, "rb") as file:
            long = [one for one in messages_of(file.read()) if 65_536 < len(one) <= 400_000]
        found += long[::max(len(long) // 4, 1)][:4]
    for target in TARGETS:
        found.append(subprocess.run([program, "make", "seed=5", "ni=400", "nj=300", *target], capture_output=True).stdout)
    return found


def work(given):
    """The inputs of one process: how many came in pieces, how many pieces these were, and how many differed."""
    program, pool, seed, first, runs = given
    draw = random.Random(f"{seed} {first}")
    done = count = differ = 0
    while done < runs:
        is_long = draw.random() < 0.05
        data = stream_of(draw, pool[is_long])
        if not is_long and len(data) > 60_000 and draw.random() < 0.9:
            continue
        word = draw.choice(("check", "list"))
        wanted = whole_answer(program, word, data)
        for _ in range(min(4, runs - done)):
            pieces = cut(draw, data)
            done, count = done + 1, count + len(pieces)
            found = answer(program, word, pieces)
            if found != wanted:
                differ += 1
                sizes = [len(piece) for piece in pieces]
                print(f"{word} of {len(data)} octets in {sizes[:20]}: {found[1:]} and not {wanted[1:]}", flush=True)
    return done, count, differ


def main():
    options = {"runs": "1000", "seed": "1", "jobs": "1"}
    words = [word for word in sys.argv[1:] if word.split("=", 1)[0] in options and "=" in word]
    options.update(word.split("=", 1) for word in words)
    paths = [word for word in sys.argv[1:] if word not in words]
    if len(paths) < 2:
        sys.exit(__doc__)
    program, jobs = os.path.abspath(paths[0]), int(options["jobs"])
    pool, begun = (pool_of(program, paths[1:]), long_pool(program, paths[1:])), time.monotonic()
    given = [(program, pool, options["seed"], first, int(options["runs"]) // jobs) for first in range(jobs)]
    with multiprocessing.Pool(jobs) as processes:
        done, count, differ = map(sum, zip(*processes.map(work, given, chunksize=1)))
    print(f"{done} inputs in {count} pieces, {differ} differ, {time.monotonic() - begun:.0f} seconds; seed {options['seed']}")
    sys.exit(differ > 0)


if __name__ == "__main__":
    main()
