"""Readings and scans (docs/RULES.md, from "Clean" to "Scan")."""
from builds import build
from forms import Refused, bytes_of, words_of
from graphs import graph_of
from tables import Table


def read_table(table, text):
    """(leaf, end), or None."""
    entered, state = [], table.start
    if state == 65535 or state == 0:
        return None
    for k, step in enumerate([*text, 256], 1):
        state = table.steps[state][step]
        if state == 0:
            break
        entered.append((state, k))
    records = [(table.leaf(state), k - 1) for state, k in entered if table.leaf(state) is not None]
    return records[-1] if records else None


def read_graph(graph, text):
    if not graph.rows:
        return None
    records, state, k = [], graph.root, 0
    while state is not None:
        if graph.early[state] is not None:
            records.append((graph.early[state], k))
        elif graph.accept[state] is not None and k > 0:
            records.append((graph.accept[state], k - 1))
        if k == len(text):
            end = graph.rows[state][256]
            if end is not None and graph.accept[end] is not None:
                records.append((graph.accept[end], len(text)))
            break
        state, k = graph.rows[state][text[k]], k + 1
    return records[-1] if records else None


def scan(graph, text, offset):
    """(leaf, start, end) of tokens and (None, start, end) of gaps, up to the text's end."""
    pieces = []
    while offset < len(text):
        leaf, end = read_graph(graph, text[offset:]) or (None, 0)
        pieces.append((leaf, offset, offset + end) if end else (None, offset, offset + 1))
        offset = pieces[-1][2]
    return pieces


def clean(table, errors):
    if errors or table.chain[0] or any(table.steps[0]):
        return False
    for state in table.reached():
        leaves = {table.leaf(target) for target in table.steps[state][:256]}
        if len(leaves) == 1 and None not in leaves and table.steps[state][256] == 0:
            return False
    return True


def shown(reading):
    return "none" if reading is None else f"{reading[0]},{reading[1]}"


def scan_shown(pieces):
    return " ".join([f"gap:{start},{end}" if leaf is None else f"token:{leaf},{start},{end}" for leaf, start, end in pieces] + ["ended"])


def line(case):
    words, text = words_of(case[1]), bytes_of(case[2])
    try:
        if case[0] == "table":
            table = Table(words)
            graph = build(table)
            told = f"clean {int(clean(table, graph.errors))} table {shown(read_table(table, text))}"
            return f"{told} graph {shown(read_graph(graph, text))} scan {scan_shown(scan(graph, text, 0))}"
        graph, offset = graph_of(words), int(case[3])
        scanned = "refused-14" if offset > len(text) else scan_shown(scan(graph, text, offset))
        return f"graph {shown(read_graph(graph, text))} scan {scanned}"
    except Refused as refused:
        number = refused.args[0]
        return f"table refused-{number}" if case[0] == "table" else f"graph refused-{number} scan refused-{number}"
