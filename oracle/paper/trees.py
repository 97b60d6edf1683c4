"""Pattern trees (docs/RULES.md, "Pattern trees" and "Priorities")."""
from forms import bytes_of, need, told, words_of


def tree_of(words, text):
    """The records of a legal tree, numbered from 1; 10 for any other."""
    need(len(words) % 6 == 0 and 0 < len(words) // 6 <= 1024, 10)
    count = len(words) // 6
    tree = {i + 1: words[6 * i : 6 * i + 6] for i in range(count)}
    names = []
    for i, (kind, a, b, flags, first, next_) in tree.items():
        need(kind <= 7, 10)
        need(a == 0 or kind in (1, 4), 10)
        need(b == 0 or kind == 1, 10)
        need(kind != 1 or a + b <= len(text), 10)
        need(flags <= {2: 1, 4: 3}.get(kind, 0), 10)
        need(first < i and next_ < i, 10)
        need((first == 0) if kind <= 3 else (first != 0 or kind >= 6), 10)
        need(kind not in (4, 5) or tree[first][5] == 0, 10)
        names += [name for name in (first, next_) if name]
    need(tree[count][5] == 0 and sorted(names) == list(range(1, count)), 10)
    return tree


def chain(tree, i):
    while i:
        yield i
        i = tree[i][5]


# Unicode, Table 3-7: the lead bytes, and what the bytes after them may be
TRAIL = (0x80, 0xBF)
WELL_FORMED = [
    ((0x00, 0x7F),),
    ((0xC2, 0xDF), TRAIL),
    ((0xE0, 0xE0), (0xA0, 0xBF), TRAIL),
    ((0xE1, 0xEC), TRAIL, TRAIL),
    ((0xED, 0xED), (0x80, 0x9F), TRAIL),
    ((0xEE, 0xEF), TRAIL, TRAIL),
    ((0xF0, 0xF0), (0x90, 0xBF), TRAIL, TRAIL),
    ((0xF1, 0xF3), TRAIL, TRAIL, TRAIL),
    ((0xF4, 0xF4), (0x80, 0x8F), TRAIL, TRAIL),
]


def code_points(text):
    """How many code points well-formed UTF-8 has; None for other bytes."""
    at, count = 0, 0
    while at < len(text):
        for row in WELL_FORMED:
            part = text[at : at + len(row)]
            if len(part) == len(row) and all(low <= byte <= high for byte, (low, high) in zip(part, row)):
                at, count = at + len(row), count + 1
                break
        else:
            return None
    return count


def values(tree, text):
    """Every record's value; 11 if one passes 32 bits."""
    value = {}
    for i, (kind, a, b, _, first, _) in tree.items():
        below = [value[child] for child in chain(tree, first)]
        if kind == 1:
            points = code_points(text[a : a + b])
            value[i] = 2 * (b if points is None else points)
        else:
            value[i] = {2: 2, 4: a * sum(below), 5: sum(below), 6: sum(below), 7: min(below, default=0)}.get(kind, 0)
    need(max(value.values()) <= 4294967295, 11)
    return value


def greedy_all(tree, i):
    kind, _, _, flags, first, _ = tree[i]
    if kind == 4:
        return flags == 3 and tree[first][0] == 2 and tree[first][3] == 1
    return any(greedy_all(tree, child) for child in chain(tree, first))


def line(case):
    words, text = words_of(case[1]), bytes_of(case[2])
    priority = told(lambda: values(tree_of(words, text), text)[len(words) // 6])
    greedy = told(lambda: greedy_all(tree_of(words, text), len(words) // 6))
    return f"priority {priority} greedy {greedy}"
