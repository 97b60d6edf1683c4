#!/usr/bin/env python3
"""Compares the oracle with another program on random cases.

    compare.py NAME SEED COUNT [PROGRAM ARGUMENT..]

The program is given NAME as its last argument, reads a case a line on standard input, and prints an answer a line; without one, oracle/paper
answers. The first case that is answered differently is shown, and the exit status is 1; so it is where a program fails. COUNT cases are
taken from SEED on, 2,000 of each seed.

The original has no angles: their cases oracle/paper makes and answers in the oracle's place, so a program must be given. Before the random cases
come those that are always the same.
"""
import os
import subprocess
import sys

HERE = os.path.dirname(os.path.abspath(__file__))
ORACLE = os.path.join(HERE, "..", "target", "oracle", "oracle")
PAPER = [sys.executable, os.path.join(HERE, "paper")]
BATCH = 2000


def lines(command, given=""):
    """A program's lines; its end in any other way than with success is an error."""
    return subprocess.run(command, input=given, text=True, stdout=subprocess.PIPE, check=True).stdout.splitlines()


def batches(make, seed, count):
    """Lists of cases, and where each comes from."""
    if make[0] != ORACLE:
        yield "no seed", lines(make)
    while count > 0:
        yield f"seed {seed}", lines(make + [str(seed), str(min(BATCH, count))])
        seed, count = seed + 1, count - BATCH


def main():
    if len(sys.argv) < 4:
        sys.exit(__doc__)
    name, seed, count = sys.argv[1], int(sys.argv[2]), int(sys.argv[3])
    port = sys.argv[4:] or PAPER
    make, answer = [ORACLE, "cases", name], [ORACLE, "answers", name]
    if name == "angles":
        make, answer = PAPER + ["cases", name], PAPER + [name]
        if port == PAPER:
            sys.exit("oracle/paper is not compared with itself: name a program")
    done = 0
    for place, cases in batches(make, seed, count):
        given = "".join(case + "\n" for case in cases)
        try:
            ours, theirs = lines(port + [name], given), lines(answer, given)
        except subprocess.CalledProcessError as failed:
            sys.exit(f"{place}: {failed}")
        for case, our, their in zip(cases, ours, theirs):
            if our != their:
                sys.exit(f"differs, {place}\ncase   {case}\noracle {their}\nport   {our}")
        if not len(cases) == len(ours) == len(theirs):
            sys.exit(f"{place}: {len(cases)} cases, {len(theirs)} answers of the oracle, {len(ours)} of the port")
        done += len(cases)
    print(f"{name}: {done} cases alike")


if __name__ == "__main__":
    main()
