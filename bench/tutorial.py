#!/usr/bin/env python3
"""bench/tutorial.py [PROGRAM [PAGE]]: does what the tutorial says, and compares what is printed.

PROGRAM (default crates/imakern/out/imakern) is on the PATH as `imakern`, and so are
crates/NAME/out/NAME of imakern_orders and imakern_view if they are built, in a temporary folder in
which `examples` and `bench` are the repository's. PAGE (default docs/TUTORIAL.md) is read from top to bottom:

- A fenced block with two words after its fence, as ```script first.script, is written to the file
  that the second word names.
- A block ```console is a shell session, run by one bash. A line that begins with `$ ` is a command,
  one with `> ` directly after it goes on with it, and the next ones are what it prints, errors too.
  A line `..` stands for any lines, `..` within a line for the rest of a word, and two spaces and
  `<- ` begin a remark.
- A row of a table that begins with `line L: CAUSE` has in its second cell what line L of
  first.script is replaced with, or a command after `$ `. The message is then all that is printed.

One line is printed for each session and row, then `N checked, M differ`. A step that needs a tool
that isn't here is skipped, and its line says so. Status 1 if one differs, 2 without a program."""
import os, re, shlex, shutil, subprocess, sys, tempfile

top = os.path.dirname(os.path.dirname(os.path.abspath(__file__)))
TOOLS = ['evmctl', 'lsattr', 'imakern_orders', 'imakern_view']
BASE = 'first.script'
AFTER = '\x1e'  # printed after each command of a session


def steps(page):
    """The blocks and rows of a page: line number, words after the fence (or `row`), and lines."""
    block, row = None, re.compile(r'\| `(line \d+: [^`]+)` \| `([^`]+)` \|')
    for number, line in enumerate(page.splitlines(), 1):
        if line.startswith('```'):
            if block:
                yield block
            block = None if block else (number, line[3:].split(), [])
        elif block:
            block[2].append(line)
        elif line.startswith('| `line '):
            found = row.match(line)
            cells = [cell.replace('\\|', '|') for cell in found.groups()] if found else []
            yield number, ['row'] if found else [], cells or [line]
    if block:
        sys.exit('line %d: this block has no end' % block[0])


def session(lines):
    """The commands of a session, each with the lines that it prints."""
    commands = []
    for line in lines:
        if line.startswith('$ '):
            commands.append([line[2:], []])
        elif line.startswith('> ') and not commands[-1][1]:
            commands[-1][0] += '\n' + line[2:]
        else:
            commands[-1][1].append(re.sub(r' {2,}<- .*', '', line))
    return commands


def row(lines):
    """The one command that a row of the table of faults is, with the message as what it prints."""
    message, cell = lines
    if cell.startswith('$ '):
        return [[cell[2:], [message]]]
    place = re.match(r'line (\d+)', message).group(1)
    change = 'line=%s awk \'NR == %s {print ENVIRON["line"]; next} 1\' %s | imakern run'
    return [[change % (shlex.quote(cell), place, BASE), [message]]]


def fits(shown, line):
    return re.fullmatch('[^ ]*'.join(map(re.escape, shown.split('..'))), line) is not None


def same(shown, lines):
    if not shown:
        return not lines
    if shown[0] == '..':
        return any(same(shown[1:], lines[at:]) for at in range(len(lines) + 1))
    return bool(lines) and fits(shown[0], lines[0]) and same(shown[1:], lines[1:])


def difference(shown, lines):
    """The first line on the page that isn't printed, or the empty text if all are."""
    if same(shown, lines):
        return ''
    for at, line in enumerate(shown):
        if line != '..' and not same(shown[:at + 1] + ['..'], lines):
            return 'not printed: ' + line
    return 'more is printed: ' + lines[-1]


def outputs(commands, folder, env):
    """What each command prints, with one bash for all of them."""
    after = "\n__status=$?; printf '\\036'; (exit $__status)\n"
    text = 'umask 022\n' + ''.join(command + after for command, _ in commands)
    ran = subprocess.run(['bash', '-c', text], cwd=folder, env=env, stdin=subprocess.DEVNULL,
                         stdout=subprocess.PIPE, stderr=subprocess.STDOUT, timeout=120)
    return ran.stdout.decode(errors='replace').split(AFTER)


def compare(commands, folder, env):
    """The first difference in a session, or the empty text."""
    try:
        printed = outputs(commands, folder, env)
    except subprocess.TimeoutExpired as late:
        return 'no end after %d seconds' % late.timeout
    if len(printed) <= len(commands):
        return 'the shell ended after: ' + printed[-1]
    for (command, shown), output in zip(commands, printed):
        found = difference(shown, output.splitlines())
        if found:
            return '$ %s: %s' % (command.replace('\n', ' '), found)
    return ''


def missing_tool(commands, files, path):
    """A tool that a command needs, or a file that it names, and that isn't here."""
    texts = [command for command, _ in commands]
    texts += [body for name, body in files.items() if any(name in text for text in texts)]
    for tool in TOOLS:
        if re.search(r'\b%s\b' % tool, '\n'.join(texts)) and not shutil.which(tool, path=path):
            return tool
    return None


def check(page, folder, env):
    """Does all steps of a page; how many were compared, and how many of these differ."""
    files, unused, checked, differ = {}, {}, 0, 0

    def say(number, text):
        print(('line %d: %s' % (number, text))[:200], flush=True)

    for number, words, lines in steps(page):
        if len(words) == 2:
            files[words[1]] = '\n'.join(lines + [''])
            unused[words[1]] = number
            with open(os.path.join(folder, words[1]), 'w') as out:
                out.write(files[words[1]])
            continue
        found = 'neither a file nor a session'
        if words == ['row'] or words == ['console'] and lines and lines[0].startswith('$ '):
            commands = row(lines) if words == ['row'] else session(lines)
            for name in list(unused):
                if any(name in command for command, _ in commands):
                    del unused[name]
            tool = missing_tool(commands, files, env['PATH'])
            if tool:
                say(number, 'skipped, since there is no %s here' % tool)
                continue
            found = compare(commands, folder, env)
        checked += 1
        differ += bool(found)
        first = lines[1] if words == ['row'] else lines[0] if lines else ''
        say(number, 'DIFFERS: ' + found if found else 'same: ' + first)
    for name, number in unused.items():
        say(number, 'DIFFERS: nothing uses the file ' + name)
    return checked + len(unused), differ + len(unused)


def main():
    words = sys.argv[1:] + [None, None]
    program = os.path.abspath(words[0] or os.path.join(top, 'crates', 'imakern', 'out', 'imakern'))
    if not os.access(program, os.X_OK):
        print('no program at %s; ./imakern builds it' % program, file=sys.stderr)
        return 2
    with open(words[1] or os.path.join(top, 'docs', 'TUTORIAL.md')) as page:
        page = page.read()
    with tempfile.TemporaryDirectory() as made:
        folder = os.path.join(made, 'work')
        os.makedirs(os.path.join(made, 'bin'))
        os.makedirs(folder)
        os.symlink(program, os.path.join(made, 'bin', 'imakern'))
        for name in ('imakern_orders', 'imakern_view'):
            built = os.path.join(top, 'crates', name, 'out', name)
            if os.access(built, os.X_OK):
                os.symlink(built, os.path.join(made, 'bin', name))
        for name in ('examples', 'bench'):
            os.symlink(os.path.join(top, name), os.path.join(folder, name))
        path = os.path.join(made, 'bin') + os.pathsep + os.environ['PATH']
        env = dict(os.environ, PATH=path, LC_ALL='C')
        checked, differ = check(page, folder, env)
    print('%d checked, %d differ' % (checked, differ))
    return 1 if differ else 0


if __name__ == '__main__':
    sys.exit(main())
