#!/usr/bin/env python3
"""bench/pages.py [write] [PROGRAM]: are the stored pages those that `imakern_view` writes?

crates/worked_cases sees only its own folder, so its data/views repeats the reports of examples/ and
has the pages that the gate compares. That the copies are the same is compared here, and that each
page is what the program writes; likewise the run of crates/imakern_view that the gate makes, and
the picture of README.md. After the drawing or an example was changed, `bench/pages.py write` writes all
of these; look at the pages (bench/look) before you keep them.

The program is crates/imakern_view/out/imakern_view, which `rt run imakern_view` builds, or PROGRAM.
Status 1: something differs.
"""
import os, re, subprocess, sys

TOP = os.path.dirname(os.path.dirname(os.path.abspath(__file__)))
WORKED = os.path.join(TOP, 'crates', 'worked_cases')
DATA = os.path.join(WORKED, 'data', 'views')
WRITE = sys.argv[1:2] == ['write']
VIEW = os.path.join(TOP, 'crates', 'imakern_view')
BUILT = os.path.join(VIEW, 'out', 'imakern_view')
PROGRAM = (sys.argv[2 if WRITE else 1:] or [BUILT])[0]
OTHER_CASE = re.compile(r'\("([a-z0-9 ]+)", &\[([a-z_0-9", ]+)\], "([a-z_0-9.]+)"\)')
differing = []


def read(path):
    try:
        with open(path, 'rb') as file:
            return file.read()
    except FileNotFoundError:
        return b''


def keep(path, data):
    """Writes the file, or notes that it isn't this."""
    if read(path) == data:
        return
    if WRITE:
        with open(path, 'wb') as file:
            file.write(data)
    else:
        differing.append(os.path.relpath(path, TOP))


def page(words, report):
    got = subprocess.run([PROGRAM] + words.split(), input=report, capture_output=True)
    if got.returncode != 0 or got.stderr:
        sys.exit('%s: status %d, %r' % (words, got.returncode, got.stderr))
    return got.stdout


def report(name):
    return read(os.path.join(DATA, name + '.report'))


for name in sorted(os.listdir(os.path.join(TOP, 'examples'))):
    if name.endswith('.report'):
        keep(os.path.join(DATA, name), read(os.path.join(TOP, 'examples', name)))
lines, cuts = [], []
source = read(os.path.join(TOP, 'crates', 'worked_views', 'src', 'lib.rt')).decode()
names = re.search(r'static REPORTS: .*?= \[(.*?)\];', source, re.S).group(1)
for name in re.findall(r'"([a-z_0-9]+)"', names):
    keep(os.path.join(DATA, name + '.html'), page('page', report(name)))
    lines.append('page: %s.html' % name)
    cuts.append('%s: is refused if it is cut' % name)
lines += cuts
for words, names, file in OTHER_CASE.findall(source):
    texts = b''.join(report(name) for name in re.findall(r'"([a-z_0-9]+)"', names))
    keep(os.path.join(DATA, file), page(words, texts))
    lines.append('%s: %s' % (words, file))
for words in re.findall(r'\("([^"]*)", (?:USAGE|REFUSED|NO_PLACE),', source):
    lines.append('refused: %s' % words)
stdout = read(os.path.join(WORKED, 'stdout'))
# The lines of the pages come last.
front = stdout[:stdout.index(b'\npage: ') + 1]
keep(os.path.join(WORKED, 'stdout'), front + ('\n'.join(lines) + '\n').encode())
picture = page('svg 0', report('tomtou'))
keep(os.path.join(TOP, 'examples', 'tomtou.svg'), picture)
keep(os.path.join(VIEW, 'args'), b'svg\n0\n')
keep(os.path.join(VIEW, 'stdin'), report('tomtou'))
keep(os.path.join(VIEW, 'stdout'), picture)
for path in differing:
    print('DIFFERS: %s' % path)
print('%d pages, %d differ' % (len(lines), len(differing)))
sys.exit(1 if differing else 0)
