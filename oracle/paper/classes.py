"""Byte classes and the mask store (docs/RULES.md, "Classes and comparisons" and "Masks")."""
from forms import bytes_of, numbers_text

# ---- a class is the ascending list of its bytes


def class_of(packed):
    return [b for b in range(256) if packed[b // 8] >> (b % 8) & 1]


def ranges(bytes_in):
    """Maximal ranges: a byte without its lower neighbour begins one, a byte without its upper neighbour ends one."""
    held = set(bytes_in)
    firsts = [b for b in bytes_in if b - 1 not in held]
    lasts = [b for b in bytes_in if b + 1 not in held]
    return list(zip(firsts, lasts))


def comparisons(bytes_in):
    """Ranges joined where one byte parts them: (first, last, exceptions)."""
    joined = []
    for first, last in ranges(bytes_in):
        if joined and first - joined[-1][1] == 2:
            before, _, except_ = joined.pop()
            joined.append((before, last, except_ + [first - 1]))
        else:
            joined.append((first, last, []))
    return joined


def count_ops(comparison):
    first, last, except_ = comparison
    ends = 1 if first == last else (first != 0) + (last != 255)
    return ends + len(except_)


def cost(bytes_in):
    return sum(map(count_ops, comparisons(bytes_in)))


def class_answer(bytes_in):
    shown = [f"{first}-{last}!{numbers_text(except_)}:{count_ops((first, last, except_))}" for first, last, except_ in comparisons(bytes_in)]
    held = [f"{first}-{last}" for first, last in ranges(bytes_in)]
    return f"ranges {' '.join(held)} comparisons {' '.join(shown)} cost {cost(bytes_in)}"


# ---- the mask store is a list of classes


def held_classes(tables, count):
    return [[b for b in range(256) if tables[256 * (i // 8) + b] >> (i % 8) & 1] for i in range(count)]


def luts(classes):
    tables = bytearray(2048)
    for i, held in enumerate(classes):
        for b in held:
            tables[256 * (i // 8) + b] |= 1 << (i % 8)
    return bytes(tables)


def store_add(classes, added):
    """The number of a class, the store growing if it lacks it; None for 15."""
    if added not in classes:
        if len(classes) == 64:
            return None
        classes.append(added)
    return classes.index(added)


def store_of(tables, count):
    """The classes of a store that 15 allows, else None."""
    if count > 64:
        return None
    classes = held_classes(tables, count)
    return classes if all(c not in classes[:i] for i, c in enumerate(classes)) else None


def store_answer(count, tables, added):
    classes = store_of(tables, count)
    if classes is None:
        numbers, held, shown = [None] * len(added), count, "refused 15"
    else:
        numbers = [store_add(classes, c) for c in added]
        held, shown = len(classes), luts(classes).hex()
    numbers = ",".join("refused-15" if n is None else str(n) for n in numbers)
    return f"numbers {numbers} held {held} luts {shown}"


def line(words):
    if words[0] == "class":
        return class_answer(class_of(bytes_of(words[1])))
    return store_answer(int(words[1]), bytes_of(words[2]), [class_of(bytes_of(text)) for text in words[3:]])
