"""Graphs, their words and condition 12."""
from forms import need


class Graph:
    """Rows of 257 targets or None, accepts, earlies, and the root; the errors of its build as (kind, leaves)."""

    def __init__(self, rows, accept, early, root, errors=()):
        self.rows, self.accept, self.early, self.root, self.errors = rows, accept, early, root, errors

    def words(self):
        words = [len(self.rows), self.root]
        for row, accept, early in zip(self.rows, self.accept, self.early):
            words += [65535 if target is None else target for target in row]
            words.append((255 if accept is None else accept) + 256 * (255 if early is None else early))
        return words

    def error_words(self):
        return [word for kind, leaves in self.errors for word in [kind, len(leaves), *leaves]]


def graph_of(words):
    """The graph of words that condition 12 takes."""
    need(len(words) >= 2, 12)
    count, root = words[:2]
    need(count <= 1024 and len(words) >= 2 + 258 * count, 12)
    need(root < count or count == root == 0, 12)
    rows = [words[2 + 258 * s :][:258] for s in range(count)]
    need(all(target < count or target == 65535 for row in rows for target in row[:257]), 12)
    leaf = lambda mark: None if mark == 255 else mark
    targets = [[None if target == 65535 else target for target in row[:257]] for row in rows]
    return Graph(targets, [leaf(row[257] % 256) for row in rows], [leaf(row[257] // 256) for row in rows], root)
