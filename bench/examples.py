#!/usr/bin/env python3
"""bench/examples.py [write] [PROGRAM]: are the examples and what is stored of them the same?

Each script of examples/ has its report beside it (NAME.report), and each other example its output
(NAME.output): a policy that of `policy`, a list text that of `list`, a text of buffers that of
`buffers`, a carry text that of `carry`, and labels.script, audit.script and loads.script those of
`label`, `audit` and `loads`. threads.script has none, since its runs differ. In a policy the
comment `# refused (CAUSE): LINE` says that `policy` refuses LINE, and why. All of this is compared
with what the program prints.

The gate compares it too. crates/worked_cases sees only its own folder, so the family
data/runs/examples.cases repeats each example with its output, status and note, and its stdout names
them; that these copies are the same is compared here. After an example was added or changed,
`bench/examples.py write` writes the stored outputs, the cases and the names; look at what git says
has changed.

The program is crates/imakern/out/imakern, which ./imakern builds, or PROGRAM. Status 1: something
differs.
"""
import os, re, subprocess, sys

TOP = os.path.dirname(os.path.dirname(os.path.abspath(__file__)))
EXAMPLES = os.path.join(TOP, 'examples')
WORKED = os.path.join(TOP, 'crates', 'worked_cases')
WRITE = sys.argv[1:2] == ['write']
BUILT = os.path.join(TOP, 'crates', 'imakern', 'out', 'imakern')
PROGRAM = (sys.argv[2 if WRITE else 1:] or [BUILT])[0]
COMMANDS = {'script': 'run', 'policy': 'policy', 'list': 'list', 'buffers': 'buffers',
            'carry': 'carry'}
OTHER_COMMAND = {'labels.script': 'label', 'audit.script': 'audit', 'loads.script': 'loads'}
RUNS_DIFFER = {'threads.script'}
differing = []


def read(path):
    try:
        with open(path, encoding='ascii', newline='') as file:
            return file.read()
    except FileNotFoundError:
        return ''


def answer(command, text):
    return subprocess.run([PROGRAM, command], input=text, capture_output=True, text=True)


def keep(path, text):
    """Writes the file, or notes that it isn't this text."""
    if read(path) == text:
        return
    if WRITE:
        with open(path, 'w', encoding='ascii', newline='') as file:
            file.write(text)
    else:
        differing.append(os.path.relpath(path, TOP))


def case(name, command, text, got):
    """The case as crates/worked_runs/src/cases.rt reads it."""
    if '--- ' in text or '>>> ' in text + got.stdout:
        sys.exit('%s: a case can\'t have this text' % name)
    note = '--- notes\n' + got.stderr if got.stderr else ''
    return '>>> %s\n%s\n%s--- writes %d\n%s%s' % (
        name, command, text, got.returncode, got.stdout, note)


def cases_of(name):
    """The cases of one example: its own, and one for each line that it calls refused."""
    stem, kind = name.rsplit('.', 1)
    command = OTHER_COMMAND.get(name, COMMANDS[kind])
    text = read(os.path.join(EXAMPLES, name))
    got = answer(command, text)
    stored = stem + ('.report' if command == 'run' else '.output')
    keep(os.path.join(EXAMPLES, stored), got.stdout)
    cases = [case(name, command, text, got)]
    if kind == 'policy':
        for cause, line in re.findall(r'(?m)^# refused \((.*?)\): (.*)$', text):
            got = answer('policy', line + '\n')
            if (got.returncode, got.stdout, got.stderr) != (2, '', 'line 1: %s\n' % cause):
                differing.append('%s: %s' % (name, line))
            cases.append(case('%s refuses %s' % (name, line), 'policy', line + '\n', got))
    return cases


def main():
    if not os.path.exists(PROGRAM):
        sys.exit('%s is not built: run ./imakern first' % PROGRAM)
    names = sorted(name for name in os.listdir(EXAMPLES)
                   if name.rsplit('.', 1)[-1] in COMMANDS and name not in RUNS_DIFFER)
    cases = [each for name in names for each in cases_of(name)]
    keep(os.path.join(WORKED, 'data', 'runs', 'examples.cases'), ''.join(cases))
    lines = ''.join('examples: %s\n' % each[len('>>> '):each.index('\n')] for each in cases)
    stdout = os.path.join(WORKED, 'stdout')
    keep(stdout, re.sub(r'(?m)(^examples: .*\n)+', lambda _: lines, read(stdout), count=1))
    for each in differing:
        print('differs: ' + each)
    print('%d examples, %d cases, %d differ' % (len(names), len(cases), len(differing)))
    sys.exit(1 if differing else 0)


main()
