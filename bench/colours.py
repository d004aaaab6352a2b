#!/usr/bin/env python3
"""bench/colours.py [FIRST SECOND [PROGRAM]]: are the right columns of two reports coloured?

The page is what `imakern_view pair` makes of the reports FIRST and SECOND, or of the two schedules
of the race in crates/worked_cases/data/views. Which columns have to be coloured is computed here
from the text of the reports alone: yellow are the events that the same step is told otherwise in
the other journal, or that are missing there, and the violet line stands before the first place at
which the journals part. Places in journals and in the list don't count. Status 1: a colour is
missing or too many.

The program is crates/imakern_view/out/imakern_view, which `rt run imakern_view` builds, or PROGRAM.
"""
import os
import re
import subprocess
import sys
from itertools import zip_longest

TOP = os.path.dirname(os.path.dirname(os.path.abspath(__file__)))
DATA = os.path.join(TOP, 'crates', 'worked_cases', 'data', 'views')
BUILT = os.path.join(TOP, 'crates', 'imakern_view', 'out', 'imakern_view')
ON_A_FILE = {'check', 'take', 'chunk', 'finish', 'read', 'write', 'trunc',
             'close', 'close-take', 'close-chunk', 'close-finish'}
PLACED = {'added', 'already', 'tomtou', 'open-writers'}


def told_of(words):
    """What an event is told, without the places in the list."""
    return tuple('_' if before in PLACED else word for before, word in zip([''] + words, words))


def journal_of(lines):
    """Of each event: its step, its deed, the step that opened its file, and what it is told."""
    steps, events = [], []
    for line in lines:
        _, step, *words = line.split()
        steps.append(step)
        deed, told = words, []
        if '=' in words:
            deed, told = words[:words.index('=')], words[words.index('=') + 1:]
        opener = None
        if deed and deed[0] in ON_A_FILE:
            opener, deed = steps[int(deed[1])], deed[:1] + deed[2:]
        events.append((step, tuple(deed), opener, told_of(told)))
    return events


def journals(report):
    """The journal of each inode of a report."""
    found = []
    for part in re.split(r'^inode ', report, flags=re.M)[1:]:
        lines = re.findall(r'^\d+ (?:birth|\d+\.\d+\.\d+ ).*$', part, re.M)
        found.append(journal_of(lines))
    return found


def yellow(journal, other):
    """The places of the events that the other journal doesn't tell alike."""
    told = {(step, told) for step, _, _, told in other}
    return [place for place, (step, _, _, it) in enumerate(journal) if (step, it) not in told]


def parting(first, second):
    """The first place at which the journals differ."""
    pairs = enumerate(zip_longest(first, second))
    return next((place for place, (a, b) in pairs if a != b), None)


def wanted(firsts, seconds):
    """Of each drawing: its side, its inode, its yellow places, and the place of its violet line."""
    for inode, (first, second) in enumerate(zip(firsts, seconds)):
        part = parting(first, second)
        if part is not None:
            for side, own, other in ('a-', first, second), ('b-', second, first):
                yield side, inode, yellow(own, other), [part] if part < len(own) else []


def drawn(page):
    """The same of each drawing of the page."""
    for drawing in re.findall(r'<svg xmlns.*?</svg>', page, re.S):
        marks = re.findall(r'id="([ab]-)i(\d+)-e(\d+)" transform="translate\((\d+),', drawing)
        place_at = {int(x) - 15: int(place) for _, _, place, x in marks}
        columns = re.findall(r'<rect class="differs" x="(\d+)"', drawing)
        lines = re.findall(r'<path class="g-p" d="M(\d+)', drawing)
        yield (marks[0][0], int(marks[0][1]), [place_at[int(x)] for x in columns],
               [place_at[int(x)] for x in lines])


names = sys.argv[1:3] or [os.path.join(DATA, name) for name in ('race.report',
                                                                'race_swapped.report')]
reports = [open(name, encoding='utf-8').read() for name in names]
page = subprocess.run([(sys.argv[3:] or [BUILT])[0], 'pair'], input=''.join(reports),
                      capture_output=True, text=True, check=True).stdout
have, want = list(drawn(page)), list(wanted(*map(journals, reports)))
for side, inode, columns, lines in have:
    print('%s inode %d: yellow %s, violet %s' % (
        {'a-': 'first', 'b-': 'second'}[side], inode, columns, lines))
if have != want:
    print('wanted: %s' % want)
sys.exit(have != want)
