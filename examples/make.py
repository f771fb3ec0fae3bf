#!/usr/bin/env python3
"""make.py DESCRIPTION: writes the chain file that a readable description tells to standard output.

It checks nothing, so that a description can tell a file that the planner refuses; a line
`bytes HEX` adds bytes as they are.
"""
import re
import sys


def number(value, size):
    return int(value).to_bytes(size, "big")


def body(name, period, deadline, parts):
    stages = [part for part in parts if part.startswith("stage")]
    out = number(name, 2) + number(period, 4) + number(deadline, 4) + number(len(stages), 1)
    for part in parts:
        kind, length, board = re.fullmatch(r"(stage|message) (\d+)(?: on (\d+))?", part).groups()
        if kind == "stage":
            out += number(board or 0, 1)
        out += number(length, 4)
    return out


def main():
    out = b""
    for line in open(sys.argv[1], encoding="utf-8"):
        line = line.split("#")[0].strip()
        if line.startswith("boards"):
            out += number(1, 1) + number(line.split()[1], 1)
        elif line.startswith("bytes"):
            out += bytes.fromhex(line.split()[1])
        elif line:
            head, tail = line.split(":")
            name, period, deadline = re.fullmatch(r"chain (\d+) period (\d+) deadline (\d+)", head).groups()
            record = body(name, period, deadline, [part.strip() for part in tail.split(",")])
            out += number(len(record), 2) + record
    sys.stdout.buffer.write(out)


main()
