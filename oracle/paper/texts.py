"""The text of a graph, and the line of an error (docs/FORMATS.md, "Text of a graph")."""
from classes import ranges
from forms import Refused, need, words_of
from graphs import graph_of


def escaped(byte):
    named = {9: "\\t", 13: "\\r", 10: "\\n", 39: "\\'", 34: '\\"', 92: "\\\\"}
    return named.get(byte) or (chr(byte) if 32 <= byte <= 126 else f"\\x{byte:02x}")


def class_text(bytes_in):
    return "|".join(escaped(a) if a == b else f"{escaped(a)}..={escaped(b)}" for a, b in ranges(bytes_in))


def display(graph):
    states = []
    for number, row in enumerate(graph.rows):
        marks = [("accept", graph.accept[number]), ("early", graph.early[number])]
        shown = "".join(f"{name}({leaf}) " for name, leaf in marks if leaf is not None)
        lines = [f"  state{number} => StateData({shown}) {{"]
        for target in sorted(set(row[:256]) - {None}):
            lines.append(f"    {class_text([b for b in range(256) if row[b] == target])} => state{target}")
        lines += [f"    EOI => state{row[256]}"] if row[256] is not None else []
        states.append("\n".join(lines + ["  }"]))
    return "\n".join(states)


def in_one_line(text):
    return text.replace("\n", "¶")


def text_or_refusal(ask):
    try:
        return ask()
    except Refused as refused:
        return f"refused-{refused.args[0]}"


def display_text(words):
    return text_or_refusal(lambda: display(graph_of(words)))


def error_line(words):
    """The line of the error that the words begin with: kind, leaf count, leaves."""
    need(len(words) >= 2 and len(words) >= 2 + words[1], 9)
    return " ".join(["error", str(words[0])] + [str(leaf) for leaf in words[2 : 2 + words[1]]])


def error_text(words):
    return text_or_refusal(lambda: error_line(words))


def line(case):
    text = display_text(words_of(case[1]))
    return text if text.startswith("refused-") else f"text {in_one_line(text)}"
