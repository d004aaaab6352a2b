#!/usr/bin/env python3
"""bench/drawings.py < PAGES: checks the drawings in pages or SVG files, one after another: that each
is well-formed, that each event has one mark in its own column and in one lane, and that no two bars
or flags overlap. Status 1: one isn't so, or there is none."""
import re
import sys
import xml.dom.minidom

BAR = r'<rect rx="3" class="b-[^"]*" x="(\d+)" y="(\d+)" width="(\d+)"'
FLAG = r'<rect class="f-\w" rx="2" height="14" x="(\d+)" y="-(\d+)" width="(\d+)"'
LANE = r'<rect class="l[01]" x="96" y="(\d+)" width="\d+" height="(\d+)"'
MARK = r'id="(?:[ab]-)?i\d+-e(\d+)" transform="translate\((\d+),(\d+)\)'
AXIS = r'class="place" dy="10" x="(\d+)" y="\d+">(\d+)<'


def found(pattern, drawing):
    return [tuple(int(n) for n in m) for m in re.findall(pattern, drawing)]


def overlap(blocks):
    return any(a[1] == b[1] and a[0] < b[0] + b[2] and b[0] < a[0] + a[2]
               for k, a in enumerate(blocks) for b in blocks[:k])


def faults(drawing):
    xml.dom.minidom.parseString(drawing)
    marks, lanes = found(MARK, drawing), found(LANE, drawing)
    if [(x, p) for p, x, y in marks] != found(AXIS, drawing):
        yield 'the marks and the axis differ'
    if len({x for p, x, y in marks}) != len(marks):
        yield 'two marks stand in a column'
    if any(p and sum(top <= y < top + high for top, high in lanes) != 1 for p, x, y in marks):
        yield 'a mark stands in no lane'
    if overlap(found(BAR, drawing)):
        yield 'two bars overlap'
    if overlap(found(FLAG, drawing)):
        yield 'two flags overlap'


bad = 0
drawings = re.findall(r'<svg.*?</svg>', sys.stdin.read(), re.S)
for number, drawing in enumerate(drawings):
    for fault in faults(drawing):
        bad += 1
        print('drawing %d: %s' % (number, fault))
print('%d drawings, %d faults' % (len(drawings), bad))
sys.exit(1 if bad or not drawings else 0)
