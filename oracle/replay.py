#!/usr/bin/env python3
"""Reads the stored lists as docs/ORACLE.md lays them out and holds every value against the rules as oracle/paper has them.

    replay.py [NAME ..]
"""
import os
import sys

sys.dont_write_bytecode = True
sys.path.insert(0, os.path.join(os.path.dirname(os.path.abspath(__file__)), "paper"))
import builds as building
import classes as classing
import graphs
import plans as planning
import readings as reading
import tables
import texts
import trees
from forms import Refused, told

ROOT = os.path.dirname(os.path.dirname(os.path.abspath(__file__)))


def path(name):
    """Where a list stands: with the program that replays it."""
    return os.path.join(ROOT, "crates", "replay_" + name, "stdin")


class Stored:
    """A list while it is read."""

    def __init__(self, name):
        with open(path(name), "rb") as file:
            self.all = file.read()
        self.at = 0
        self.checked = 0

    def bytes(self, count):
        self.at += count
        assert self.at <= len(self.all), "the list ends early"
        return self.all[self.at - count : self.at]

    def number(self, width):
        return int.from_bytes(self.bytes(width), "little")

    def byte(self):
        return self.number(1)

    def word(self):
        return self.number(4)

    def cases(self):
        """The cases that are left: the kind of each, its numbers, and its parts."""
        while self.at < len(self.all):
            end = self.word() + self.at
            kind, numbers, parts = self.byte(), self.byte(), self.byte()
            numbers = [self.word() for _ in range(numbers)]
            ends = [0] + [self.word() for _ in range(parts)]
            parts = [self.bytes(to - start) for start, to in zip(ends, ends[1:])]
            assert self.at == end, "a case that does not come out even"
            yield kind, numbers, parts

    def same(self, found, expected, what):
        assert found == expected, f"{what}, before byte {self.at}: stored {expected}, by the rules {found}"
        self.checked += 1


def words_of(part):
    """The words of runs."""
    words = []
    for at in range(0, len(part), 4):
        words += [int.from_bytes(part[at + 2 : at + 4], "little")] * int.from_bytes(part[at : at + 2], "little")
    assert len(part) % 4 == 0, "bytes that are no runs"
    return words


# ---- classes


def classes(stored):
    for kind, numbers, parts in stored.cases():
        (one_class, one_count, one_store)[kind](stored, numbers, parts)


def classes_of(part):
    return [classing.class_of(part[at : at + 32]) for at in range(0, len(part), 32)]


def one_class(stored, numbers, parts):
    held = classing.class_of(parts[0])
    stored.same(classing.ranges(held), list(zip(parts[1], parts[2], strict=True)), "ranges")
    comparisons, at = [], 0
    for first, last, exceptions in zip(*parts[3:6], strict=True):
        comparisons.append((first, last, list(parts[6][at : at + exceptions])))
        at += exceptions
    assert at == len(parts[6]), "exceptions of no comparison"
    stored.same(classing.comparisons(held), comparisons, "comparisons")
    stored.same(classing.cost(held), *numbers, "cost")


def one_count(stored, numbers, parts):
    first, last, exceptions, ops = numbers
    stored.same(classing.count_ops((first, last, [first] * exceptions)), ops, "count_ops")


def one_store(stored, numbers, parts):
    (fill, count, held, refusal), (before, added, masks, after, luts) = numbers, parts
    tables = planning.tables_of(fill, classes_of(before))
    store = classing.store_of(tables, count)
    for flags, number in zip(classes_of(added), masks, strict=True):
        stored.same(mask(store, flags), number, "mask number")
    stored.same(count if store is None else len(store), held, "held")
    stored.same(15 if store is None else 0, refusal, "refusal")
    if store is None:
        stored.same(before, after, "tables")
        return
    stored.same(planning.tables_of(fill, store + classes_of(before)[len(store) :]), planning.tables_of(fill, classes_of(after)), "tables")
    stored.same(classing.luts(store), luts.ljust(2048, b"\0"), "rendered tables")


def mask(store, added):
    number = classing.store_add(store, added) if store is not None else None
    return 255 if number is None else number


# ---- priorities


def priority(text):
    points = trees.code_points(text)
    return 2 * (len(text) if points is None else points)


def priorities(stored):
    for kind, numbers, parts in stored.cases():
        (literals, one_string, tree)[kind](stored, numbers, parts)


def literals(stored, numbers, parts):
    (place,), (string, priorities) = numbers, parts
    strings = [string[:place] + bytes((byte,)) + string[place + 1 :] for byte in range(256)]
    stored.same([priority(string) for string in strings], words_of(priorities), "literals")


def one_string(stored, numbers, parts):
    stored.same(priority(*parts), *numbers, "literal")


def tree(stored, numbers, parts):
    (refusal, value, greedy_refusal, greedy), (packed, text) = numbers, parts
    words = [int.from_bytes(packed[at : at + 4], "little") for at in range(0, len(packed), 4)]
    found = told(lambda: trees.values(trees.tree_of(words, text), text)[len(words) // 6])
    stored.same(found, f"refused-{refusal}" if refusal else str(value), "priority")
    found = told(lambda: trees.greedy_all(trees.tree_of(words, text), len(words) // 6))
    stored.same(found, f"refused-{greedy_refusal}" if greedy_refusal else str(greedy), "greedy")


# ---- builds and texts


def builds(stored):
    for kind, (fill, refusal, *answer), (table, odd, graph_buffer, error_buffer) in stored.cases():
        words, graph_buffer, error_buffer = words_of(table), words_of(graph_buffer), words_of(error_buffer)
        graph_words, error_words = [], []
        try:
            graph, found = building.build_within(words, len(graph_buffer), len(error_buffer)), 0
            graph_words, error_words = graph.words(), graph.error_words()
            graph_words += [0] * (2 + 258 * words[0] - len(graph_words))
            stored.same([len(graph.rows), graph.root, len(graph.errors), len(error_words)], answer, "answer")
        except Refused as refused:
            found = refused.args[0]
        stored.same(found, refusal, "refusal")
        stored.same(10 if odd or 2 * len(words) > 65536 else found, kind, "refusal of the image")
        for buffer, given in ((graph_buffer, graph_words), (error_buffer, error_words)):
            stored.same(given + [fill] * (len(buffer) - len(given)), buffer, "buffer")


def display(stored):
    for kind, (refusal,), (words, text) in stored.cases():
        found = (texts.display_text, texts.error_text)[kind](words_of(words))
        stored.same(found, f"refused-{refusal}" if refusal else text.decode("ascii"), "text")


# ---- readings


def reading_of(number):
    leaf, end = number % 65536, number // 65536
    return None if (leaf, end) == (65535, 0) else (leaf, end)


def pieces_of(part):
    """Pieces of a scan: leaf, start and end; the part has start, end and leaf of each."""
    words = [int.from_bytes(part[at : at + 4], "little") for at in range(0, len(part), 4)]
    entries = zip(words[0::3], words[1::3], words[2::3], strict=True)
    return [(None if leaf == 65535 else leaf, start, end) for start, end, leaf in entries]


def readings(stored):
    host = None
    for kind, numbers, parts in stored.cases():
        host = (one_table, one_graph, text_of_table, text_of_graph)[kind](stored, host, numbers, parts)


def one_table(stored, host, numbers, parts):
    clean, fill, *answer = numbers
    words, graph_buffer, error_buffer = map(words_of, parts)
    table = tables.Table(words)
    graph = building.build(table)
    stored.same([len(graph.rows), graph.root, len(graph.errors), len(graph.error_words())], answer, "answer")
    graph_words = graph.words() + [0] * (258 * (words[0] - len(graph.rows)))
    for buffer, given in ((graph_buffer, graph_words), (error_buffer, graph.error_words())):
        stored.same(given + [fill] * (len(buffer) - len(given)), buffer, "buffer")
    stored.same(reading.clean(table, graph.errors), clean == 1, "clean")
    return table, graph


def one_graph(stored, host, numbers, parts):
    (refusal,), (words,) = numbers, map(words_of, parts)
    stored.same(told(lambda: graphs.graph_of(words) is None), f"refused-{refusal}" if refusal else "0", "refusal")
    return None if refusal else (None, graphs.graph_of(words))


def text_of_table(stored, host, numbers, parts):
    (table, graph), (text, entries) = host, parts
    stored.same(reading.read_table(table, text), reading_of(numbers[0]), "reading of the table")
    stored.same(reading.read_graph(graph, text), reading_of(numbers[1]), "reading of the graph")
    stored.same(reading.scan(graph, text, 0), pieces_of(entries), "scan")
    return host


def text_of_graph(stored, host, numbers, parts):
    (_, graph), (text, entries), (read, offset, refusal) = host, parts, numbers
    stored.same(reading.read_graph(graph, text), reading_of(read), "reading of the graph")
    stored.same(14 if offset > len(text) else 0, refusal, "refusal of the scan")
    if refusal == 0:
        stored.same(reading.scan(graph, text, offset), pieces_of(entries), "scan")
    return host


# ---- plans


def plans(stored):
    host = None
    for kind, numbers, parts in stored.cases():
        if kind < 4:
            host = one_plan(stored, kind, numbers, parts)
        else:
            one_run(stored, kind, host, numbers, parts)


def one_plan(stored, kind, numbers, parts):
    (fill, byte, count, count_after), (graph, masks, masks_after, buffer) = numbers, parts
    words, buffer = words_of(graph), words_of(buffer)
    before, after = (planning.tables_of(byte, classes_of(part)) for part in (masks, masks_after))
    chosen, store, found = [], None, 0
    try:
        chosen, store = planning.planned(words, before, count, len(buffer))
    except Refused as refused:
        found = refused.args[0]
    stored.same(found, (0, 12, 14, 15)[kind], "refusal")
    stored.same(chosen + [fill] * (len(buffer) - len(chosen)), buffer, "plan buffer")
    if store is None:
        stored.same((before, count), (after, count_after), "store")
    else:
        behind = classes_of(masks)[len(store) :]
        stored.same((planning.tables_of(byte, store + behind), len(store)), (after, count_after), "store")
    return words, chosen, [(before, count), (after, count_after)]


def one_run(stored, kind, host, numbers, parts):
    (words, chosen, stores), (grown, length, at, value, refusal, read), (text,) = host, numbers, parts
    given = chosen[:length]
    if at != 65535:
        given[at] = value
    try:
        found = 0, planning.run(words, *stores[grown], given, text)
    except Refused as refused:
        found = refused.args[0], None
    stored.same(found, (refusal, reading_of(read)), "run")
    stored.same(5 if refusal else 4, kind, "kind")


REPLAYS = {
    "classes": classes,
    "priorities": priorities,
    "builds": builds,
    "display": display,
    "readings": readings,
    "plans": plans,
}


def main():
    sys.setrecursionlimit(10000)
    for name in sys.argv[1:] or REPLAYS:
        stored = Stored(name)
        REPLAYS[name](stored)
        assert stored.at == len(stored.all), f"{name}: {len(stored.all) - stored.at} bytes are left"
        print(f"{name}: {stored.checked} values alike")


if __name__ == "__main__":
    main()
