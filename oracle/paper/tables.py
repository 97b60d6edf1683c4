"""Tables (docs/FORMATS.md, "Table")."""
from forms import need


class Table:
    """A table that conditions 1 to 7 take."""

    def __init__(self, words):
        need(len(words) >= 4, 1)
        n, self.start, m, r = words[:4]
        need(1 <= n <= 1024 and m <= 255 and r <= 4095, 2)
        need(len(words) == 4 + 3 * m + 258 * n + 2 * r, 3)
        need(self.start < n or self.start == 65535, 4)
        entries = [words[4 + 3 * i : 7 + 3 * i] for i in range(m)]
        need(all(empty <= 1 for _, _, empty in entries), 5)
        self.priority = [low + (high << 16) for low, high, _ in entries]
        self.empty = [leaf for leaf in range(m) if entries[leaf][2] == 1]
        rows = [words[4 + 3 * m + 258 * s :][:258] for s in range(n)]
        self.steps = [row[:257] for row in rows]
        need(all(max(steps) < n for steps in self.steps), 6)
        records = [words[4 + 3 * m + 258 * n + 2 * i :][:2] for i in range(r)]
        self.chains = [[]]
        for number, (leaf, next_) in enumerate(records, 1):
            need(leaf < m and next_ < number, 7)
            need(next_ == 0 or records[next_ - 1][0] > leaf, 7)
            self.chains.append([leaf] + self.chains[next_])
        need(all(row[257] <= r for row in rows), 7)
        self.chain = [self.chains[row[257]] for row in rows]

    def best(self, state):
        """The leaves of highest priority in a state's chain: none, one, or a tie."""
        highest = max((self.priority[leaf] for leaf in self.chain[state]), default=None)
        return [leaf for leaf in self.chain[state] if self.priority[leaf] == highest]

    def leaf(self, state):
        best = self.best(state)
        return best[0] if len(best) == 1 else None

    def reached(self):
        found, waiting = {self.start}, [self.start]
        while waiting:
            for target in set(self.steps[waiting.pop()]) - found:
                found.add(target)
                waiting.append(target)
        return sorted(found)
