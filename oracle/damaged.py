#!/usr/bin/env python3
"""Runs the graph printer on images, most of them damaged, and holds what it prints against the oracle.

    damaged.py SEED COUNT [IMAGE ..]

For each image that is named (examples/*.image without one): every beginning of it, shorter and shorter, and COUNT copies with one to four bytes
changed. Then images about the longest length, headers at their limits, COUNT images of random bytes, and the tables of COUNT random cases of the
oracle. Each run must end by itself with status 0 within LIMIT seconds, say nothing on standard error, and print one of the outputs that
docs/FORMATS.md has, which is the oracle's. The first run that does not ends the comparison with status 1, and its image is left in target/damaged.image.
"""
import collections
import concurrent.futures
import glob
import itertools
import os
import random
import re
import struct
import subprocess
import sys
import time

ROOT = os.path.dirname(os.path.dirname(os.path.abspath(__file__)))
PRINTER = os.path.join(ROOT, "crates", "printer", "out", "printer")
ORACLE = os.path.join(ROOT, "target", "oracle", "oracle")
LEFT = os.path.join(ROOT, "target", "damaged.image")
LIMIT = 10
LONGEST = 65536

STATE = rb"  state\d+ => StateData\((accept\(\d+\) )?(early\(\d+\) )?\) \{\n(    [ -~]+ => state\d+\n)*  \}\n"
DEFINED = re.compile(rb"refused ([1-9]|13)\n|(\n|(" + STATE + rb")+)(error 0\n|(error 1 \d+\n)*|(error 2( \d+){2,}\n)*)")


def image_of(words):
    return struct.pack(f"<{len(words)}H", *words)


def beginnings(image):
    return (image[:length] for length in range(len(image), -1, -1))


def changed(chance, image, count):
    for _ in range(count):
        damaged = bytearray(image)
        for _ in range(chance.randint(1, 4)):
            # a word of the header, of a leaf or of a record is not often hit by chance alone
            place = chance.choice([chance.randrange(len(image)), chance.randrange(min(64, len(image))), len(image) - 1 - chance.randrange(min(64, len(image)))])
            damaged[place] = chance.choice([0, 1, 255, chance.randrange(256), chance.choice(image), damaged[place] ^ 1 << chance.randrange(8)])
        yield bytes(damaged)


def long_ones(chance, images):
    """Images about the longest length: of zeros, of random bytes, and sound ones with bytes added."""
    for length in [LONGEST - 2, LONGEST - 1, LONGEST, LONGEST + 1, LONGEST + 2, 1 << 20]:
        yield bytes(length)
        yield chance.randbytes(length)
        for image in images:
            yield image + bytes(length - len(image))
    # 122 states with a tie of 255 leaves each: the most words that errors can take
    records = list(itertools.chain.from_iterable((255 - i, i - 1) for i in range(1, 256)))
    rows = [(([s + 1 if s + 1 < 122 else 0] * 257) + [255]) for s in range(122)]
    words = [122, 0, 255, 255] + [7, 0, 0] * 255 + list(itertools.chain.from_iterable(rows)) + records
    yield image_of(words)


def headers():
    """n, start, m and r at their limits, with a length that is exact, a word short, or a word long."""
    for n in [0, 1, 2, 125, 126, 127, 1024, 1025, 65535]:
        for m in [0, 1, 255, 256]:
            for r in [0, 1, 4095, 4096]:
                exact = 4 + 3 * m + 258 * n + 2 * r
                for start in {0, 1, max(n, 1) - 1, n, 65534, 65535}:
                    for length in {min(max(exact + more, 4), LONGEST // 2 + 1) for more in [-1, 0, 1]}:
                        yield image_of(([n, start, m, r] + [0] * length)[:length])


def random_ones(chance, count):
    for _ in range(count):
        yield chance.randbytes(chance.choice([chance.randrange(16), chance.randrange(2100), chance.randrange(LONGEST + 3)]))


def tables(seed, count):
    """The tables of the oracle's own random cases, a field `5,0*258,7` as words."""
    lines = subprocess.run([ORACLE, "cases", "builds", str(seed), str(count)], stdout=subprocess.PIPE, text=True, check=True).stdout
    for line in lines.splitlines():
        field = line.split()[4]
        words = []
        for part in field.split(",") if field != "-" else []:
            value, _, times = part.partition("*")
            words += [int(value)] * int(times or 1)
        yield image_of(words)


def run(image):
    """What is wrong with a run, nothing if it is right; what was printed; the time it took."""
    began = time.monotonic()
    try:
        ours = subprocess.run([PRINTER], input=image, capture_output=True, timeout=LIMIT)
    except subprocess.TimeoutExpired:
        return "does not end", b"", LIMIT
    took = time.monotonic() - began
    theirs = subprocess.run([ORACLE, "print"], input=image, stdout=subprocess.PIPE, check=True).stdout
    wrong = ""
    if ours.returncode != 0 or ours.stderr:
        wrong = f"status {ours.returncode}, standard error {ours.stderr!r}"
    elif not DEFINED.fullmatch(ours.stdout):
        wrong = "prints what is no output of docs/FORMATS.md"
    elif ours.stdout != theirs:
        wrong = "differs from the oracle"
    return wrong, ours.stdout, took


def main():
    if len(sys.argv) < 3:
        sys.exit(__doc__)
    chance, seed, count = random.Random(int(sys.argv[1])), sys.argv[1], int(sys.argv[2])
    names = sys.argv[3:] or sorted(glob.glob(os.path.join(ROOT, "examples", "*.image")))
    images = [open(name, "rb").read() for name in names]
    kinds = [(f"beginnings of {os.path.basename(name)}", beginnings(image)) for name, image in zip(names, images)]
    kinds += [(f"{os.path.basename(name)} with bytes changed", changed(chance, image, count)) for name, image in zip(names, images)]
    kinds += [("long ones", long_ones(chance, images)), ("headers", headers()), ("random bytes", random_ones(chance, count))]
    kinds += [("tables of the oracle", tables(seed, count))]
    whole, slowest = 0, 0
    with concurrent.futures.ThreadPoolExecutor(os.cpu_count()) as pool:
        for kind, given in kinds:
            printed = collections.Counter()
            while batch := list(itertools.islice(given, 1000)):
                for image, (wrong, out, took) in zip(batch, pool.map(run, batch)):
                    if wrong:
                        open(LEFT, "wb").write(image)
                        sys.exit(f"{kind}, {len(image)} bytes: {wrong}; see {LEFT}")
                    printed[out.decode().strip() if out.startswith(b"refused") else "errors" if b"error" in out else "a graph"] += 1
                    slowest = max(slowest, took)
            print(f"{kind}: {sum(printed.values())} alike;", ", ".join(f"{what} {n}" for what, n in sorted(printed.items())), flush=True)
            whole += sum(printed.values())
    print(f"{whole} images alike, the slowest in {slowest:.2f} s")


if __name__ == "__main__":
    main()
