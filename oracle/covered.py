#!/usr/bin/env python3
"""Counts what the random cases of builds cover.

    covered.py SEED COUNT

The cases are those of `compare.py builds SEED COUNT`; what kind each is, the rules in oracle/paper say.
"""
import os
import sys
from collections import Counter

sys.dont_write_bytecode = True
HERE = os.path.dirname(os.path.abspath(__file__))
sys.path[:0] = [HERE, os.path.join(HERE, "paper")]
import builds
from compare import BATCH, ORACLE, lines
from forms import Refused, words_of
from readings import clean

rounds = 0
renumbered = builds.renumbered


def counting(*parts):
    """Rule 8 renumbers once before its rounds, and once in each that merges."""
    global rounds
    rounds += 1
    return renumbered(*parts)


builds.renumbered = counting


def range_of(number, edges):
    """The range between two edges that a number is in."""
    above = [edge for edge in edges if edge > number]
    least = max(edge for edge in edges if edge <= number)
    if not above:
        return f"{least:,} and more"
    return f"{least:,}" if above[0] == least + 1 else f"{least:,} to {above[0] - 1:,}"


SIZES = [0, 1, 2, 3, 10, 100, 500, 1000, 1024, 1025]


def kinds_of(case):
    """What a case of builds is, each kind as (subject, kind)."""
    global rounds
    _, graph_buffer, error_buffer, odd, words = case.split()
    words = words_of(words)
    refused = 0
    rounds = 0
    try:
        graph = builds.build_within(words, int(graph_buffer), int(error_buffer))
    except Refused as refusal:
        refused = refusal.args[0]
    yield "refusal of the words", str(refused)
    for broken in broken_rules(refused, words):
        yield "refusal of the words", f"{refused} for {broken}"
    if odd != "-" or 2 * len(words) > 65536:
        yield "refusal of the image", f"13 where the words get {refused}"
    if refused:
        return
    table = builds.Table(words)
    reached = [] if table.start == 65535 else table.reached()
    yield "states of the table", range_of(len(table.steps), SIZES)
    yield "states reached", range_of(len(reached), SIZES)
    yield "states of the graph", range_of(len(graph.rows), SIZES)
    yield "merge rounds", range_of(max(rounds - 1, 0), [0, 1, 2, 3, 5, 10, 30, 100])
    yield "leaves", range_of(len(table.priority), [0, 1, 2, 3, 10, 255])
    yield "clean", "yes" if clean(table, graph.errors) else "no"
    yield "state 0", state_0(table, reached)
    yield "targets of a state, most", range_of(max((len(set(table.steps[s])) for s in reached), default=0), [0, 1, 2, 4, 10, 100])
    yield "errors", range_of(len(graph.errors), [0, 1, 2, 10, 100])
    for kind, tied in {(kind, min(len(leaves), 4)) for kind, leaves in graph.errors}:
        yield "builds with an error", f"{kind} of {tied} leaves" + (" and more" if tied == 4 else "")
    if any(graph.errors.count(error) > 1 for error in graph.errors[:20]):
        yield "builds with an error", "equal ones"
    marks = (any(a is not None for a in graph.accept), any(e is not None for e in graph.early))
    yield "marks", {(0, 0): "none", (1, 0): "accept", (0, 1): "early", (1, 1): "both"}[marks]
    yield "end edges", "some" if any(row[256] is not None for row in graph.rows) else "none"
    yield "words to spare", f"graph {int(graph_buffer) > 2 + 258 * len(table.steps)}, errors {int(error_buffer) > len(graph.error_words())}"


def broken_rules(refused, words):
    """Which of the conditions that 2, 3 and 7 stand for are broken."""
    if refused == 2:
        n, _, m, r = words[:4]
        return [what for what, broken in [("no states", n == 0), ("states", n > 1024), ("leaves", m > 255), ("records", r > 4095)] if broken]
    if refused == 3:
        n, _, m, r = words[:4]
        return ["too short" if len(words) < 4 + 3 * m + 258 * n + 2 * r else "too long"]
    if refused != 7:
        return []
    n, _, m, r = words[:4]
    heads = [words[4 + 3 * m + 258 * state + 257] for state in range(n)]
    records = [words[len(words) - 2 * r + 2 * i :][:2] for i in range(r)]
    found = [
        ("a head", max(heads) > r),
        ("a leaf", any(leaf >= m for leaf, _ in records)),
        ("a next", any(next_ >= number for number, (_, next_) in enumerate(records, 1))),
        ("an order", any(0 < next_ < number and records[next_ - 1][0] <= leaf for number, (leaf, next_) in enumerate(records, 1))),
    ]
    return [what for what, broken in found if broken]


def state_0(table, reached):
    if 0 not in reached:
        return "not reached"
    alive = any(table.steps[0]) or table.chain[0]
    return ("start, " if table.start == 0 else "reached, ") + ("alive" if alive else "dead")


def main():
    if len(sys.argv) != 3:
        sys.exit(__doc__)
    seed, count = map(int, sys.argv[1:])
    counts, done = Counter(), 0
    while done < count:
        cases = lines([ORACLE, "cases", "builds", str(seed), str(min(BATCH, count - done))])
        for case in cases:
            counts.update(kinds_of(case))
        done += len(cases)
        seed += 1
    subjects = list(dict.fromkeys(subject for subject, _ in counts))
    for subject in subjects:
        print(subject)
        found = sorted((kind, times) for (own, kind), times in counts.items() if own == subject)
        for kind, times in sorted(found, key=lambda one: int(one[0].split()[0].replace(",", "")) if one[0].strip()[0].isdigit() else -1):
            print(f"  {kind}: {times}")


if __name__ == "__main__":
    main()
