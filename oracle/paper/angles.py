"""Angles (docs/RULES.md, "Angles"): the reading of a text, the text of a value, and the cases for both."""
import itertools
import random
import re
from decimal import Decimal
from fractions import Fraction

from forms import bytes_of

SHAPE = re.compile(rb"[+-]?[0-9]{1,3}\.[0-9]{1,2}")
MISSING = b"---"
MOST_DEGREES = 180
BLOCK = 7


def read(text):
    """The hundredths of an angle, or one of the two other answers."""
    if text == MISSING:
        return "missing"
    degrees = Fraction(text.decode()) if SHAPE.fullmatch(text) else None
    return "not-an-angle" if degrees is None or abs(degrees) > MOST_DEGREES else str(100 * degrees)


def write(hundredths):
    """The text of a value, as exact decimals are written; none out of range."""
    return str(Decimal(hundredths).scaleb(-2)).encode() if abs(hundredths) <= 100 * MOST_DEGREES else b""


def line(case):
    if case[0] == "text":
        return read(bytes_of(case[1]))
    text = write(int(case[1]))
    block = text.ljust(BLOCK, b"\0")
    return f"block {block.hex()} length {len(text)} text {read(text)} whole {read(block)}"


# ---- cases

LETTERS = b"+-.0189 x"
LONGEST = 5
WIDEST_VALUE = 18100


def text_case(text):
    return f"text {text.hex() or '-'}"


def numerals(most):
    """All rows of one to so many digits."""
    return [f"{number:0{length}}" for length in range(1, most + 1) for number in range(10**length)]


def every_case():
    """Every value in the range and a little past it; every text of the shape; every text of few bytes."""
    yield from (f"value {value}" for value in range(-WIDEST_VALUE, WIDEST_VALUE + 1))
    for sign, whole, part in itertools.product(["", "+", "-"], numerals(3), numerals(2)):
        yield text_case(f"{sign}{whole}.{part}".encode())
    for length in range(LONGEST + 1):
        yield from (text_case(bytes(letters)) for letters in itertools.product(LETTERS, repeat=length))


def digits(chance, low, high):
    return "".join(chance.choices("0123456789", k=chance.randint(low, high)))


def shaped(chance):
    """A text of the shape, most often in range."""
    whole = chance.choice([digits(chance, 1, 2), digits(chance, 1, 3), str(chance.randint(178, 181)), f"{chance.randint(0, 180):03}"])
    return f"{chance.choice(['', '+', '-'])}{whole}.{digits(chance, 1, 2)}".encode()


def at_the_limits(chance):
    """About 180 degrees, or about a number that passes 16 or 32 bits, with a digit too many or too few."""
    whole = chance.choice([180, 180, 181, 179, 1 << 16, 1 << 31, 1 << 32, (1 << 32) // 100, (1 << 64) // 100]) + chance.choice([0, 0, 0, 1, 180])
    part = chance.choice(["", "0", "00", "000", "01", "001", "1", "99", digits(chance, 0, 4)])
    return f"{chance.choice(['', '+', '-', '--', '+-'])}{'0' * chance.choice([0, 0, 0, 1, 2])}{whole}{chance.choice(['.', '.', '.', '', ','])}{part}".encode()


def damaged(chance, text):
    """One to three bytes changed, put in, left out or added behind."""
    text = bytearray(text)
    for _ in range(chance.randint(1, 3)):
        place = chance.randrange(len(text) + 1)
        new = chance.choice([chance.choice(LETTERS), chance.choice(b"\0/:,\n"), chance.randrange(256)])
        text[place : place + chance.randint(0, 1)] = chance.choice([b"", bytes([new]), bytes([new]), text[place : place + 1] * 2])
    return bytes(text) + chance.choice([b"", b"", b"\0", b"\0\0\0", b" "])


def value(chance):
    ends = [0, 100, 10000, 18000, (1 << 31) - 101]
    return chance.choice([chance.choice([-1, 1]) * (chance.choice(ends) + chance.randint(-100, 100)), chance.randint(-(1 << 31), (1 << 31) - 1), -(1 << 31)])


def random_case(chance):
    kind = chance.randrange(10)
    if kind == 0:
        return f"value {value(chance)}"
    if kind <= 2:
        return text_case(shaped(chance))
    if kind <= 4:
        return text_case(at_the_limits(chance))
    if kind <= 8:
        return text_case(damaged(chance, chance.choice([shaped(chance), shaped(chance), shaped(chance), MISSING])))
    return text_case(bytes(chance.choices(LETTERS, k=chance.choice([6, 7, 8, chance.randint(9, 300)]))))


def random_cases(seed, count):
    chance = random.Random(seed)
    return (random_case(chance) for _ in range(count))
