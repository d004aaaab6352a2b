#!/usr/bin/env python3
"""Adds answers of imakern_orders for parts of one script's orders. merge_orders.py [FILE..] reads
whole answers, one after the other, from the files or from standard input, and prints one answer: the
counts of equal outcomes are added, and the first of their orders stands for them. An answer that
isn't whole, or whose counts don't add up to its own sum, is refused with status 1. docs/FORMATS.md
says which parts make up the whole."""
import fileinput
import sys


def answers(lines):
    """The head of each answer and its rows: counts, orders and outcomes."""
    lines = iter(lines)
    for line in lines:
        if line != "imakern orders 1\n":
            raise ValueError("no answer begins with " + repr(line))
        words = next(lines, "").split()
        rows = []
        for line in lines:
            if line == "end\n":
                break
            if line.startswith("outcome "):
                turns = next(lines, "").split()
                if turns[:1] != ["schedule"]:
                    raise ValueError("a row without its schedule")
                rows.append((int(line.split()[1]), list(map(int, turns[1:])), []))
            else:
                rows[-1][2].append(line)
        else:
            raise ValueError("an answer without its end")
        yield words, rows


def merged(lines):
    """The counts, the first order and the lines of each outcome."""
    sums = {}
    for words, rows in answers(lines):
        total = sum(count for count, _, _ in rows)
        if words != ["orders", str(total), "outcomes", str(len(rows))]:
            raise ValueError("counts that don't add up: " + " ".join(words))
        for count, turns, outcome in rows:
            row = sums.setdefault("".join(outcome), [0, turns])
            row[0] += count
            row[1] = min(row[1], turns)
    return sums


def main():
    try:
        sums = merged(fileinput.input())
    except (ValueError, IndexError) as fault:
        sys.exit("merge_orders.py: %s" % fault)
    print("imakern orders 1")
    print("orders %d outcomes %d" % (sum(row[0] for row in sums.values()), len(sums)))
    for outcome, (count, turns) in sorted(sums.items(), key=lambda s: (-s[1][0], s[1][1])):
        print("outcome %d" % count)
        print(" ".join(["schedule", *map(str, turns)]))
        print(outcome, end="")
    print("end")


main()
