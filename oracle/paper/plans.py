"""Planning and the planned run (docs/RULES.md, "Plan" and "Planned run")."""
from classes import class_of, comparisons, cost, held_classes, luts, store_add
from forms import Refused, bytes_of, need, words_of, words_text
from graphs import graph_of


def tables_of(fill, classes):
    """Tables filled with one byte, the classes written into them as masks from 0 on."""
    tables = [fill] * 2048
    for i, held in enumerate(classes[:64]):
        for b in range(256):
            at = 256 * (i // 8) + b
            tables[at] = tables[at] & ~(1 << i % 8) | (b in held) << i % 8
    return tables


def store_of(tables, count):
    """The classes of a store; 15 if it counts over 64 or repeats one."""
    need(count <= 64, 15)
    classes = held_classes(tables, count)
    need(all(held not in classes[:i] for i, held in enumerate(classes)), 15)
    return classes


def edges(row):
    """(target, class) of the byte edges, by target."""
    return [(target, [b for b in range(256) if row[b] == target]) for target in sorted(set(row[:256]) - {None})]


def mask(store, held):
    number = store_add(store, held)
    need(number is not None, 15)
    return number


def plan(graph, store):
    """Three words a state; the store grows."""
    words = []
    for state, row in enumerate(graph.rows):
        own = [held for target, held in edges(row) if target == state]
        words.append(mask(store, own[0]) + 1 if own else 0)
        if len(edges(row)) > 2:
            words += [65535, 65535]
            continue
        chosen = [
            0 if target == state else 2 + mask(store, held) if cost(held) > 2 else 1
            for target, held in edges(row)
        ]
        words += chosen + [0] * (2 - len(chosen))
    return words


def planned(words, tables, count, buffer):
    """The plan, and the store's classes after it; 12, 14, 15."""
    graph = graph_of(words)
    need(buffer >= 3 * len(graph.rows), 14)
    store = store_of(tables, count)
    return plan(graph, store), store


def run(words, tables, count, given, text):
    """The runner's reading; 12, 14, 15, and 14 for a plan that is not the one or names a mask not held."""
    chosen, store = planned(words, tables, count, len(given))
    need(chosen == given[: len(chosen)] and len(store) == count, 14)
    graph, shown = graph_of(words), luts(store)
    if not graph.rows:
        return None
    has = lambda number, b: shown[256 * (number // 8) + b] >> number % 8 & 1 == 1
    reading, state, k = None, graph.root, 0
    while True:
        own, *forks = given[3 * state : 3 * state + 3]
        while own and k < len(text) and has(own - 1, text[k]):
            k += 1
        if graph.early[state] is not None:
            reading = (graph.early[state], k)
        elif graph.accept[state] is not None and k > 0:
            reading = (graph.accept[state], k - 1)
        row = graph.rows[state]
        if k == len(text):
            end = row[256]
            return reading if end is None or graph.accept[end] is None else (graph.accept[end], len(text))
        led = row[text[k]] if forks == [65535, 65535] else fork(edges(row), forks, text[k], has)
        if led is None:
            return reading
        state, k = led, k + 1


def fork(led, forks, byte, has):
    """The target of the edge whose mask has the byte's bit or whose comparisons hold."""
    for (target, held), word in zip(led, forks):
        if word >= 2 and has(word - 2, byte):
            return target
        if word == 1 and any(a <= byte <= b and byte not in except_ for a, b, except_ in comparisons(held)):
            return target
    return None


def packed(held):
    return bytes(sum((8 * at + bit in held) << bit for bit in range(8)) for at in range(32)).hex()


def line(case):
    words, count, fill = words_of(case[1]), int(case[2]), int(case[3])
    classes = [class_of(bytes_of(text)) for text in case[4].split("/") if text != "-"]
    tables = tables_of(fill, classes)
    try:
        if case[0] == "plan":
            chosen, store = planned(words, tables, count, int(case[5]))
            added = "/".join(packed(held) for held in store[count:]) or "-"
            return f"plan {words_text(chosen)} held {len(store)} added {added}"
        reading = run(words, tables, count, words_of(case[5]), bytes_of(case[6]))
        return "none" if reading is None else f"{reading[0]},{reading[1]}"
    except Refused as refused:
        return f"refused-{refused.args[0]}"
