#!/usr/bin/env python3
"""Prints the lines of one part of the input or the output of the program answers, without the heading of the part.

usage: bench/part.py NAME < crates/answers/stdin

Such a part is what an interpreter of this folder reads, or what it prints.
"""
import sys


def main():
    if len(sys.argv) != 2:
        sys.exit(__doc__)
    inside = False
    for line in sys.stdin.buffer:
        if line.startswith(b"== "):
            inside = line.split()[1] == sys.argv[1].encode()
        elif inside:
            sys.stdout.buffer.write(line)


if __name__ == "__main__":
    main()
