#!/usr/bin/env python3
"""Every order of a script's steps, one after the other, and their outcomes: what imakern_orders
must print. orders.py IMAKERN ORDERS [SCRIPT..] compares the two programs on each script, or on the
scripts below if none is named, also for the orders that begin with some turns.
orders.py IMAKERN store writes the scripts below and their rows into
crates/worked_cases/data/orders. Each read of a script must read its whole file from 0."""
import os
import subprocess
import sys

HEAD = """imakern 1
fs magic=0xef53 uuid=00000000-0000-0000-0000-000000000001 name=ext4 versions
file /a fs=0 ino=12 gen=1 uid=0 gid=0 mode=100644 content=txt:abc
file /b fs=0 ino=13 gen=1 uid=0 gid=0 mode=100644 content=txt:def
"""
MEASURE = "rule measure func=FILE_CHECK mask=MAY_READ\n"
TASK = "task uid=0 euid=0 gid=0 egid=0\n"
ADMIN = "task uid=0 euid=0 gid=0 egid=0 admin\n"
WRITER = "open 0 /a w trunc\nwrite 0 0 txt:xyz\nclose 0\n"
READER = "open 0 /a r\nread 0 0 4096\nclose 0\n"
SCRIPTS = {
    "no task": HEAD + "rounds\n",
    "opens": HEAD + MEASURE + TASK + "open 0 /a r\n" + TASK + "open 0 /a w\nrounds\n",
    "opens without a rule": HEAD + TASK + "open 0 /a r\n" + TASK + "open 0 /a w\nrounds\n",
    "reader and writer": HEAD + MEASURE + TASK + WRITER + TASK + READER + "rounds\n",
    "two files": HEAD + MEASURE + TASK + "open 0 /a r\n" + TASK + "open 0 /a w\n"
                 + TASK + "open 0 /b r\nrounds\n",
    "stuck pair": HEAD + TASK + "wait 0\npost 1\n" + TASK + "wait 1\npost 0\nrounds\n",
    "rule beside a check": HEAD + ADMIN + "addrule measure func=FILE_CHECK mask=MAY_READ\n"
                           + TASK + READER + "rounds\n",
    "labels at two closes": HEAD.replace("\nfile /b", "\nseal\nfile /b")
                            .replace("fs magic", "appraise enforce\nfs magic")
                            + "rule appraise func=FILE_CHECK fowner=0\n"
                            + TASK + "open 0 /a w\nwrite 0 0 txt:1\nclose 0\n"
                            + TASK + "open 0 /a w\nclose 0\nrounds\n",
}


def setup(text):
    """The script without its ending, and the number of its tasks."""
    lines = text.splitlines(keepends=True)
    return "".join(lines[:-1]), sum(line.startswith("task ") for line in lines)


class Runs:
    """The reports of the runs of one script by schedules, each made once."""

    def __init__(self, imakern, text):
        self.imakern, self.made = imakern, {}
        self.base, self.tasks = setup(text)

    def report(self, turns):
        if turns not in self.made:
            script = self.base + " ".join(["schedule", *map(str, turns)]) + "\n"
            run = subprocess.run([self.imakern, "run"], input=script.encode(),
                                 stdout=subprocess.PIPE)
            assert run.returncode in (0, 3), (run.returncode, script)
            self.made[turns] = run.stdout.decode().split("\n")
        return self.made[turns]

    def moves(self, turns, task):
        """A turn changes the report exactly if it moves its task."""
        return task < self.tasks and self.report(turns + (task,)) != self.report(turns)

    def orders(self, turns=()):
        """The orders that begin with these turns, each of which moves its task."""
        on = [t for t in range(self.tasks) if self.moves(turns, t)]
        if not on:
            yield turns
        for t in on:
            yield from self.orders(turns + (t,))

    def orders_after(self, first):
        """The orders that begin with these turns: none if one of them doesn't move its task."""
        if all(self.moves(first[:i], task) for i, task in enumerate(first)):
            yield from self.orders(first)


def outcome(report):
    """The lines of a row but its count and its schedule."""
    count = int(report[2].split()[1])
    entries = report[3:3 + count]
    verdict, listed, granted = {}, {}, []
    digests = [line[5:].split()[2].split(":")[-1] for line in entries]
    tasks, task = [], None
    for line in report[3 + count:]:
        words = line.split(" ")
        if words[0] == "inode":
            granted = []
        elif words[0] == "task":
            task = int(words[1])
            tasks.append((line, []))
        elif task is not None and line != "end" and line:
            call = (task, int(words[0]))
            more = verdict.get(call, "")
            if call in listed:
                more += " listed" if words[3] in listed[call] else " unlisted"
            tasks[-1][1].append(line + more)
        elif len(words) > 3 and words[1].count(".") == 2 and "=" in words:
            call = tuple(map(int, words[1].split(".")[:2]))
            told = words[words.index("=") + 1:]
            if words[2] in ("take", "finish") and told != ["begun"]:
                if told[0] in ("added", "already"):
                    granted.append(digests[int(told[1])])
                if "pass" in told:
                    verdict[call] = " pass"
                if "deny" in told:
                    verdict[call] = " deny " + told[told.index("deny") + 1]
            if words[2] == "read":
                listed[call] = list(granted)
    zeros = "0" * 40
    sets = [sorted({e for e in entries if (e[3:43] == zeros) == bad}) for bad in (False, True)]
    lines = ["measured %d" % len(sets[0]), *sets[0], "violations %d" % len(sets[1]), *sets[1]]
    for head, calls in tasks:
        lines += [head, *calls]
    return tuple(lines)


def rows(runs, first=()):
    met = {}
    for turns in runs.orders_after(first):
        row = met.setdefault(outcome(runs.report(turns)), [0, turns])
        row[0] += 1
    total = sum(row[0] for row in met.values())
    out = ["imakern orders 1", "orders %d outcomes %d" % (total, len(met))]
    for lines, (count, turns) in sorted(met.items(), key=lambda r: (-r[1][0], r[1][1])):
        out += ["outcome %d" % count, " ".join(["schedule", *map(str, turns)]), *lines]
    return "\n".join(out + ["end"]) + "\n"


# The first turns that are tried beside none.
FIRSTS = [(0,), (1,), (0, 1), (1, 0, 0), (0, 0, 0, 0, 1), (2,), (5,)]


def is_same(program, text, first, want):
    words = ["1000000", ".".join(map(str, first))] if first else []
    run = subprocess.run([program, *words], input=text.encode(), stdout=subprocess.PIPE)
    return run.returncode == 0 and run.stdout.decode() == want


def store(imakern):
    top = os.path.dirname(os.path.dirname(os.path.abspath(__file__)))
    folder = os.path.join(top, "crates", "worked_cases", "data", "orders")
    for name, text in SCRIPTS.items():
        path = os.path.join(folder, name.replace(" ", "_"))
        for end, content in ("script", text), ("orders", rows(Runs(imakern, text))):
            with open(path + "." + end, "w") as out:
                out.write(content)


def main():
    imakern, program, names = sys.argv[1], sys.argv[2], sys.argv[3:]
    if program == "store":
        return store(imakern)
    scripts = {name: open(name).read() for name in names} or SCRIPTS
    bad = 0
    for name, text in scripts.items():
        runs = Runs(imakern, text)
        want = rows(runs)
        others = [first for first in [(), *FIRSTS]
                  if not is_same(program, text, first, rows(runs, first) if first else want)]
        word = "DIFFERENT" if others else "same"
        print("%s: %s, %s" % (word, name, want.split("\n")[1]), *others, flush=True)
        bad += bool(others)
    sys.exit(1 if bad else 0)


main()
