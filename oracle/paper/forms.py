"""Forms of the case and answer lines, and refusals."""


def bytes_of(text):
    return b"" if text == "-" else bytes.fromhex(text)


def numbers_text(numbers):
    return ",".join(map(str, numbers)) or "-"


def words_of(text):
    """`5,0*258,7` as a list of words."""
    words = []
    for run in text.split(",") if text != "-" else []:
        value, _, times = run.partition("*")
        words += [int(value)] * int(times or 1)
    return words


def words_text(words):
    runs = []
    for word in words:
        if runs and runs[-1][0] == word and runs[-1][1] < 65535:
            runs[-1][1] += 1
        else:
            runs.append([word, 1])
    return ",".join(f"{word}*{times}" if times > 1 else str(word) for word, times in runs) or "-"


class Refused(Exception):
    """A refusal; its argument is its number in docs/REFUSALS.md."""


def need(condition, number):
    if not condition:
        raise Refused(number)


def told(ask):
    try:
        return str(int(ask()))
    except Refused as refused:
        return f"refused-{refused.args[0]}"
