"""The rules of docs/RULES.md read a second time: answers to case lines by them alone, in the oracle's answer lines.

    python3 oracle/paper NAME < cases
    python3 oracle/paper cases angles [SEED COUNT]

It stands in for the port where there is none yet, and shows where the rules and the Rust differ. For angles, which the Rust
has not, it stands in for the oracle: it makes their cases, COUNT random ones, or without a seed those that are always the same.
"""
import sys

sys.dont_write_bytecode = True
import angles
import builds
import classes
import plans
import readings
import texts
import trees

LINES = {
    "classes": classes.line,
    "priorities": trees.line,
    "builds": builds.line,
    "display": texts.line,
    "readings": readings.line,
    "plans": plans.line,
    "angles": angles.line,
}


def main():
    sys.setrecursionlimit(10000)
    if sys.argv[1:3] == ["cases", "angles"]:
        seeded = [int(number) for number in sys.argv[3:5]]
        print("\n".join(angles.random_cases(*seeded) if seeded else angles.every_case()))
        return
    line = LINES[sys.argv[1]]
    for case in sys.stdin:
        print(line(case.split()))


if __name__ == "__main__":
    main()
