"""The build (docs/RULES.md, rules 1 to 8)."""
from forms import Refused, need, words_of, words_text
from graphs import Graph
from tables import Table
from texts import display, in_one_line


def build(table):
    """Rules 1 to 8."""
    if table.start == 65535:
        return Graph([], [], [], 0, [(0, [])])
    if table.empty:
        return Graph([], [], [], 0, [(1, [leaf]) for leaf in table.empty])
    reached = table.reached()
    new = {state: number for number, state in enumerate(reached)}
    best = [table.best(state) for state in reached]
    errors = [(2, tie) for tie in sorted(tie for tie in best if len(tie) > 1)]
    leaf = [found[0] if len(found) == 1 else None for found in best]
    rows = [[new[target] if target else None for target in table.steps[state]] for state in reached]
    children = [set(row) - {None} for row in rows]
    early = [early_leaf(row, leaf) for row in rows]
    parents = [[p for p in range(len(rows)) if s in children[p]] for s in range(len(rows))]
    accept = [None if all(early[p] == leaf[s] for p in parents[s]) else leaf[s] for s in range(len(rows))]
    root = new[table.start]
    kept = {root} | {s for s in range(len(rows)) if accept[s] is not None or early[s] is not None}
    waiting = list(kept)
    while waiting:
        for parent in parents[waiting.pop()]:
            if parent not in kept:
                kept.add(parent)
                waiting.append(parent)
    return merged(*renumbered(rows, accept, early, root, kept, {}), errors)


def early_leaf(row, leaf):
    """Rule 5."""
    if None in row[:256]:
        return None
    leaves = {leaf[child] for child in row if child is not None}
    return leaves.pop() if len(leaves) == 1 else None


def renumbered(rows, accept, early, root, kept, merge):
    """The states kept, in their order; a target is first sent where it is merged to, and vanishes if it is not kept."""
    new = {state: number for number, state in enumerate(sorted(kept))}
    to = [new.get(merge.get(state, state)) for state in range(len(rows))]
    rows = [[None if target is None else to[target] for target in rows[state]] for state in sorted(kept)]
    return rows, [accept[s] for s in sorted(kept)], [early[s] for s in sorted(kept)], to[root]


def merged(rows, accept, early, root, errors):
    """Rule 8, round after round."""
    while True:
        first, merge = {}, {}
        for state, row in enumerate(rows):
            lowest = first.setdefault((accept[state], early[state], *row), state)
            if lowest != state:
                merge[state] = lowest
        if not merge:
            return Graph(rows, accept, early, root, errors)
        kept = set(range(len(rows))) - set(merge)
        rows, accept, early, root = renumbered(rows, accept, early, root, kept, merge)


def build_within(words, graph_buffer, error_buffer):
    table = Table(words)
    need(graph_buffer >= 2 + 258 * len(table.steps), 8)
    graph = build(table)
    need(error_buffer >= len(graph.error_words()), 9)
    return graph


def line(case):
    graph_buffer, error_buffer, odd, words = int(case[1]), int(case[2]), case[3], words_of(case[4])
    written = ""
    try:
        graph = build_within(words, graph_buffer, error_buffer)
        errors = graph.error_words()
        told = f"{len(graph.rows)},{graph.root},{len(graph.errors)},{len(errors)}"
        written = f" graph {words_text(graph.words())} errors {words_text(errors)} text {in_one_line(display(graph))}"
    except Refused as refused:
        told = f"refused-{refused.args[0]}"
    image = "refused-13" if odd != "-" or 2 * len(words) > 65536 else told
    return f"words {told} image {image}{written}"
