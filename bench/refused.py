#!/usr/bin/env python3
"""bench/refused.py [--most N] [PROGRAM]: runs with each of their allocations refused once.

It runs a few cases and `gen 1`, each as often as it allocates memory, and refuses one allocation
a run (refused.c, which `cc` compiles into the temporary folder). A run has to end with status 7,
nothing written and `out of memory`, or as it does when nothing is refused. With --most only N
allocations of each are refused, spread evenly over the run.

The program is crates/imakern/out/imakern, which ./imakern builds, or PROGRAM. The cases are of
crates/worked_runs. A line for each command counts the ends; status 1: a run ended otherwise.
"""
import argparse, os, subprocess, sys, tempfile
from concurrent.futures import ThreadPoolExecutor

BENCH = os.path.dirname(os.path.abspath(__file__))
TOP = os.path.dirname(BENCH)
DATA = os.path.join(TOP, 'crates', 'worked_cases', 'data', 'runs')
NO_MEMORY = (7, b'', b'out of memory\n')
CASES = [
    ('measuring', 'a read of a measured file'),
    ('appraisal', 'a file with a new label is read while another writer closes it'),
    ('repeats', 'a reader and then a writer'),
    ('buffers', 'each caller by its own ids, on four threads'),
    ('audit', "a close writes the label by the script's algorithm"),
]


def arguments():
    parser = argparse.ArgumentParser(usage=__doc__)
    parser.add_argument('--most', type=int, default=sys.maxsize)
    parser.add_argument('program', nargs='?',
                        default=os.path.join(TOP, 'crates', 'imakern', 'out', 'imakern'))
    return parser.parse_args()


def case(family, name):
    """The words and the input of a case, and how it has to end when nothing is refused."""
    with open(os.path.join(DATA, family + '.cases'), 'rb') as file:
        text = file.read()
    _, part = text.split(b'>>> ' + name.encode() + b'\n')
    words, part = part.split(b'\n', 1)
    script, wanted = part.split(b'--- writes 0\n')[:2]
    return words.decode().split(' '), script, (0, wanted.split(b'>>> ')[0], b'')


class Command:
    def __init__(self, given, library, words, script=b''):
        self.program, self.most, self.library = given.program, given.most, library
        self.words, self.script = words, script
        self.usual = self.end()

    def end(self, **settings):
        """Status, output and note of a run."""
        got = subprocess.run([self.program] + self.words, input=self.script, capture_output=True,
                             env=dict(os.environ, LD_PRELOAD=self.library, **settings))
        return got.returncode, got.stdout, got.stderr

    def allocations(self):
        """How many a run makes: on threads not always the same number, so the most of a few."""
        counts = []
        for _ in range(5):
            with tempfile.NamedTemporaryFile() as file:
                if self.end(REFUSED_COUNT=file.name) != self.usual:
                    sys.exit('runs without a refusal differ')
                counts.append(int.from_bytes(file.read(), sys.byteorder))
        return max(counts)

    def refuse_each(self, name):
        count = self.allocations()
        numbers = range(1, count + 1, -(-count // self.most))
        with ThreadPoolExecutor(os.cpu_count()) as pool:
            ends = list(pool.map(lambda number: self.end(REFUSED_NUMBER=str(number)), numbers))
        refused, usual = ends.count(NO_MEMORY), ends.count(self.usual)
        print('%s: %d allocations, %d refused one at a time: %d out of memory, %d as usual' % (
            name, count, len(ends), refused, usual), flush=True)
        others = [(number, end) for number, end in zip(numbers, ends)
                  if end not in (NO_MEMORY, self.usual)]
        for number, (status, out, note) in others[:10]:
            print('  the %d. refused: status %d, %d bytes written, note %r' % (
                number, status, len(out), note[:80]))
        return not others and refused > 0


def main():
    given = arguments()
    with tempfile.TemporaryDirectory() as folder:
        library = os.path.join(folder, 'refused.so')
        subprocess.run(['cc', '-O2', '-shared', '-fPIC', '-o', library,
                        os.path.join(BENCH, 'refused.c')], check=True)
        well = True
        for family, name in CASES:
            words, script, wanted = case(family, name)
            command = Command(given, library, words, script)
            if command.usual != wanted:
                sys.exit('%s: ends otherwise than the case' % name)
            well = command.refuse_each(name) and well
        command = Command(given, library, ['gen', '1'])
        if command.usual[0] != 0:
            sys.exit('gen 1: status %d' % command.usual[0])
        well = command.refuse_each('gen 1') and well
    sys.exit(0 if well else 1)


main()
