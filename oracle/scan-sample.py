#!/usr/bin/env python3
"""Prints the scan of an example's sample as its .scan has it, by a program that answers case lines.

    scan-sample.py examples/NAME PROGRAM ..
"""
import subprocess
import sys


def main():
    if len(sys.argv) < 3:
        sys.exit(__doc__)
    image, sample = (open(sys.argv[1] + kind, "rb").read() for kind in (".image", ".sample"))
    words = ",".join(str(int.from_bytes(image[at : at + 2], "little")) for at in range(0, len(image), 2))
    case = f"table {words} {sample.hex()}\n"
    answer = subprocess.run(sys.argv[2:] + ["readings"], input=case, text=True, stdout=subprocess.PIPE, check=True).stdout
    for piece in answer.split(" scan ")[1].split():
        print(piece.replace(":", " ").replace(",", " "))


if __name__ == "__main__":
    main()
