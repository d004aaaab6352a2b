#!/usr/bin/env python3
"""bench/damage.py [--jobs N] [--above] [--list] [CRATE | CRATE/NAME ..]

Tries the edits bench/damage/CRATE/NAME.edit, all or those named: each damages a definition or a
body of CRATE, and the proofs must refuse it. They have the form of must-fail edits: a line
`file: PATH`, with a PATH below src/, specs/ or proofs/ of the crate, and then pairs of lines
`old: TEXT` and `new: TEXT`. Each old TEXT is in that file exactly once; further pairs apply to
what the earlier ones made.

The edits are made one at a time in a copy of the repository, where `rt check` then runs, and put
back. A line for each edit says `refused`, `GOT THROUGH`, `not judged: WHY` or `cannot be applied:
WHY`; the lines of a crate come once all its edits were tried and the crate was proved again without
them. The last line counts them: what cannot be applied isn't judged either. The status is 0 where
every edit was refused, 2 if the arguments are wrong or there is no rt, and else 1.

--above    if the crate itself lets an edit through, also check the crates that use it,
           directly or not, in the order of crates.txt, until one refuses it: `refused by CRATE`
--jobs N   try the edits of N crates at a time (1), each in a copy of its own; a check takes 1 to
           4 GB of memory
--list     only say of each edit which file it damages and whether it can be applied, with status 1
           if one can't; nothing is checked

It is quickest after `./imakern` or `rt all check` has proved the crates, since the copies take
along what those left in crates/*/out (as hard links, if the temporary folder is on the same file
system; TMPDIR chooses it). What isn't there is proved first, in each copy. While it runs,
nothing else should change or prove the crates. Ctrl-C ends the checks and removes the copies.
"""
import argparse
import collections
import contextlib
import os
import queue
import re
import shutil
import signal
import subprocess
import sys
import tempfile
import threading
import time
from concurrent.futures import ThreadPoolExecutor, as_completed

TOP = os.path.dirname(os.path.dirname(os.path.abspath(__file__)))
CRATES = os.path.join(TOP, 'crates')
DAMAGE = os.path.join(TOP, 'bench', 'damage')
KEPT = ('incremental', 'rlib')  # what checks leave in a crate's out/ for later ones

# An error that names no declaration in front, or has one of these words, says that a text couldn't
# be read; an edit that only makes a statement false reads well.
ERROR = re.compile(r'(?:\./)?(\S+?):\d+:\d+: error: (`[^`]*`: )?(.*)')
UNREAD = re.compile('is not in scope|has no field|is no name|operand is missing|expected the end'
                    '|cannot continue')
STALE = re.compile(r'module .Rattle-(\w+)-.*Run the lower steps again')
UNBUILT = re.compile(r'^rt: the library (\w+) did not build', re.M)

# A constant with a false `prove!` is refused before anything is proved.
FALSE = re.compile(r'error\[failed-constant-evaluation\]: evaluation reached a false `prove!`')


class BadEdit(Exception):
    """Says why an edit cannot be applied."""


class Stopped(Exception):
    """Ends a worker once the whole run is given up."""


# ---- crates and edits

def read_crates():
    """Returns, for each crate of crates.txt in its order, the crates of the file that it uses."""
    with open(os.path.join(TOP, 'crates.txt'), encoding='utf-8') as file:
        rows = [line.partition('#')[0].partition(':') for line in file]
    found = {row[0].split()[0]: row[2].split() for row in rows if row[0].strip()}
    return {name: [it for it in below if it in found] for name, below in found.items()}


def all_below(crates, name):
    """Returns the crates that this one uses, directly or not."""
    found, left = set(), [name]
    while left:
        new = set(crates[left.pop()]) - found
        found |= new
        left += new
    return found


def read_text(path):
    """Returns the text of a file with its line ends as they are."""
    with open(path, encoding='utf-8', newline='') as file:
        return file.read()


def write_text(path, text):
    with open(path, 'w', encoding='utf-8', newline='') as file:
        file.write(text)


class Edit:
    """One of the files bench/damage/CRATE/NAME.edit."""

    def __init__(self, crate, name):
        self.crate, self.label = crate, '%s/%s' % (crate, name)
        with open(os.path.join(DAMAGE, self.label + '.edit'), encoding='utf-8',
                  errors='replace') as file:
            self.lines = file.read().split('\n')

    def files(self):
        """Returns the paths that the edit names, by the crate's folder."""
        return [line[len('file: '):].strip() for line in self.lines if line.startswith('file: ')]

    def pairs(self):
        """Returns the edit's pairs, each with its path, by the crate's folder."""
        path, old, found = '', '', []
        for line in self.lines:
            if line.startswith('file: '):
                path = line[len('file: '):].strip()
                if os.path.normpath(path) != path or \
                        not path.startswith(('src/', 'specs/', 'proofs/')):
                    raise BadEdit("a 'file:' line names no file below src/, specs/ or proofs/")
            elif line.startswith('old: '):
                old = line[len('old: '):]
            elif line.startswith('new:'):
                if not path or not old:
                    raise BadEdit("a 'new:' line is before any 'file:' or 'old:' line")
                new = line[len('new:'):]
                found.append((path, old, new[1:] if new.startswith(' ') else new))
                old = ''
        if not found:
            raise BadEdit("it has no 'old:' and 'new:' pair")
        return found

    def applied(self, crates, folder):
        """Returns the new text of each file that the edit changes in the folder of its crate, by
        the file's path in it."""
        if self.crate not in crates:
            raise BadEdit('crates.txt has no crate %s' % self.crate)
        texts = {}
        for path, old, new in self.pairs():
            try:
                text = texts[path] if path in texts else read_text(os.path.join(folder, path))
            except (OSError, UnicodeDecodeError):
                raise BadEdit('there is no file %s of text' % path) from None
            if text.count(old) != 1:
                raise BadEdit("an 'old:' text is in %s %d times, and not once"
                              % (path, text.count(old)))
            texts[path] = text.replace(old, new)
        return texts


def read_edits(crates):
    """Returns all edits, those of the lowest crate first."""
    places = {name: at for at, name in enumerate(crates)}
    folders = [it.name for it in os.scandir(DAMAGE) if it.is_dir()] if os.path.isdir(DAMAGE) else []
    folders.sort(key=lambda it: (places.get(it, len(places)), it))
    return [Edit(crate, name[:-len('.edit')]) for crate in folders
            for name in sorted(os.listdir(os.path.join(DAMAGE, crate))) if name.endswith('.edit')]


# ---- checks

class Runs:
    """The rt commands that are under way, so that all can be ended at once."""

    def __init__(self):
        self.lock, self.under_way, self.is_stopped = threading.Lock(), set(), False

    def run(self, words, folder):
        """Returns a command's status and what it wrote."""
        with self.lock:
            if self.is_stopped:
                raise Stopped
            # In a session of its own no Ctrl-C reaches it before this program.
            ran = subprocess.Popen(words, cwd=folder, stdin=subprocess.DEVNULL,
                                   stdout=subprocess.PIPE, stderr=subprocess.STDOUT,
                                   text=True, errors='replace', start_new_session=True)
            self.under_way.add(ran)
        said = ran.communicate()[0]
        with self.lock:
            self.under_way.discard(ran)
            if self.is_stopped:
                raise Stopped
        return ran.returncode, said

    def stop(self):
        with self.lock:
            self.is_stopped = True
            for ran in self.under_way:
                ran.terminate()


class Verdict:
    """What became of an edit: the crate that refused it, or why it wasn't judged, or neither."""

    def __init__(self, edit, by='', why='', is_applied=True):
        self.edit, self.by, self.why, self.is_applied = edit, by, why, is_applied

    def __str__(self):
        if self.why:
            said = '%s: %s' % ('not judged' if self.is_applied else 'cannot be applied', self.why)
        elif self.by:
            said = 'refused' if self.by == self.edit.crate else 'refused by %s' % self.by
        else:
            said = 'GOT THROUGH'
        return '%s: %s' % (self.edit.label, said)


def unread(said, changed):
    """Returns the first line that says that a definition, a body or an edited file couldn't be
    read, or ''."""
    for line in said.split('\n'):
        at = ERROR.match(line)
        if at and (at[1] in changed or at[1].startswith(('src/', 'specs/'))):
            if not at[2] or UNREAD.search(re.sub('`[^`]*`', '', at[3])):
                return line
    return ''


def why_unjudged(status, said, changed):
    """Returns why a check that didn't end in a proof is no refusal either, or '' if it is one."""
    unbuilt, stale = UNBUILT.search(said), STALE.search(said)
    if status < 0:
        return 'the check was ended by signal %d' % -status
    if unbuilt:
        return 'its library %s was not proved' % unbuilt[1]
    if stale:
        return 'the kept work of %s cannot be used' % stale[1]
    line = unread(said, changed)
    if line:
        return 'a text cannot be read: %s' % line[:160]
    is_refused = re.search('^logic=not-proved', said, re.M) or FALSE.search(said)
    if status != 1 or not is_refused:
        last = said.strip().split('\n')[-1]
        return 'the check ended with status %d: %s' % (status, last[:160])
    return ''


# ---- copies of the repository

def link_or_copy(source, target):
    try:
        os.link(source, target)
    except OSError:
        shutil.copy2(source, target)


def left_out(folder, _names):
    return ('out', 'must-fail') if os.path.dirname(folder) == CRATES else ()


class Copy:
    """A copy of the repository, in which one edit at a time is made, checked and put back."""

    def __init__(self, folder, crates, runs, flags):
        self.folder, self.crates, self.runs, self.flags = folder, crates, runs, flags
        self.taken = set()
        shutil.copytree(CRATES, os.path.join(folder, 'crates'), ignore=left_out)
        for name in ('crates.txt', 'HANDLES'):
            if os.path.isfile(os.path.join(TOP, name)):
                shutil.copy2(os.path.join(TOP, name), folder)

    def path(self, crate):
        return os.path.join(self.folder, 'crates', crate)

    def take(self, crate):
        """Takes along what earlier checks of the crate and of those below it kept. Linked files do:
        a later check writes a new file in place of one, and never into it."""
        for name in ({crate} | all_below(self.crates, crate)) - self.taken:
            for part in KEPT:
                source = os.path.join(CRATES, name, 'out', part)
                target = os.path.join(self.path(name), 'out', part)
                try:
                    if os.path.isdir(source):
                        shutil.copytree(source, target, copy_function=link_or_copy)
                except OSError:
                    # it is proved once more
                    shutil.rmtree(target, ignore_errors=True)
            self.taken.add(name)

    def check(self, crate, changed=()):
        """Returns whether the crate is proved, and why neither that nor a refusal can be said."""
        self.take(crate)
        status, said = self.runs.run(['rt', 'check', *self.flags], self.path(crate))
        return status == 0, '' if status == 0 else why_unjudged(status, said, changed)

    def try_edit(self, edit, above):
        """Checks the edit's crate and then those above, until one doesn't let the edit through."""
        folder = self.path(edit.crate)
        try:
            texts = edit.applied(self.crates, folder)
        except BadEdit as error:
            return Verdict(edit, why=str(error), is_applied=False)
        before = {path: read_text(os.path.join(folder, path)) for path in texts}
        try:
            for path, text in texts.items():
                write_text(os.path.join(folder, path), text)
            for crate in [edit.crate, *above]:
                is_proved, why = self.check(crate, texts if crate == edit.crate else ())
                if why:
                    return Verdict(edit, why=why if crate == edit.crate else crate + ': ' + why)
                if not is_proved:
                    return Verdict(edit, by=crate)
            return Verdict(edit)
        finally:
            for path, text in before.items():
                write_text(os.path.join(folder, path), text)

    def try_edits(self, edits, above):
        """Tries the edits of a crate in turn, each over the work that those before it kept. A crate
        refused nothing if afterwards it isn't proved without the edits either."""
        found = [self.try_edit(edit, above) for edit in edits]
        for crate in sorted({it.by for it in found} - {''}):
            if not self.check(crate)[0]:
                for it in found:
                    if it.by == crate:
                        it.by, it.why = '', '%s is not proved without the edit' % crate
        return found


# ---- the whole run

def remove(folder):
    """Removes a folder in which commands that were just ended may still write for a moment."""
    for _ in range(50):
        shutil.rmtree(folder, ignore_errors=True)
        if not os.path.exists(folder):
            return
        time.sleep(0.1)
    print('bench/damage.py: cannot remove %s' % folder, file=sys.stderr)


def try_all(groups, crates, options):
    """Gives the verdicts of each crate's edits as they come."""
    room = tempfile.mkdtemp(prefix='imakern-damage-')
    runs, copies = Runs(), queue.SimpleQueue()
    count = min(options.jobs, len(groups))
    flags = ['--jobs', '1'] if count > 1 else []
    pool = ThreadPoolExecutor(count)

    def work(crate, edits):
        above = [it for it in crates if options.above and crate in all_below(crates, it)]
        copy = copies.get()
        try:
            return copy.try_edits(edits, above)
        finally:
            copies.put(copy)

    try:
        for number in range(count):
            copies.put(Copy(os.path.join(room, str(number)), crates, runs, flags))
        for done in as_completed([pool.submit(work, *it) for it in groups.items()]):
            yield from done.result()
    finally:
        signal.signal(signal.SIGINT, signal.SIG_IGN)
        runs.stop()
        pool.shutdown(cancel_futures=True)
        remove(room)


def try_and_tell(edits, crates, options):
    """Prints a line for each edit and the counts, and returns the status."""
    groups = collections.defaultdict(list)
    for edit in edits:
        groups[edit.crate].append(edit)
    counts = collections.Counter()
    with contextlib.closing(try_all(groups, crates, options)) as verdicts:
        for verdict in verdicts:
            print(verdict, flush=True)
            counts['unjudged' if verdict.why else 'refused' if verdict.by else 'through'] += 1
    print('%d refused, %d got through, %d not judged'
          % (counts['refused'], counts['through'], counts['unjudged']))
    return 1 if counts['through'] or counts['unjudged'] else 0


def show(edits, crates):
    """Prints of each edit what it damages and whether it can be applied, and returns the status."""
    bad = 0
    for edit in edits:
        said = 'can be applied'
        try:
            edit.applied(crates, os.path.join(CRATES, edit.crate))
        except BadEdit as error:
            said = 'cannot be applied: %s' % error
            bad += 1
        print('%s: %s: %s' % (edit.label, ', '.join(edit.files()), said))
    print('%d can be applied, %d cannot' % (len(edits) - bad, bad))
    return 1 if bad else 0


def read_words(crates):
    """Returns the options, and the edits that are to be tried."""
    usage, _, rest = __doc__.partition('\n\n')
    parser = argparse.ArgumentParser(usage=usage, description=rest, allow_abbrev=False,
                                     formatter_class=argparse.RawDescriptionHelpFormatter)
    parser.add_argument('--jobs', type=int, default=1, help=argparse.SUPPRESS)
    parser.add_argument('--above', action='store_true', help=argparse.SUPPRESS)
    parser.add_argument('--list', action='store_true', help=argparse.SUPPRESS)
    parser.add_argument('names', nargs='*', help=argparse.SUPPRESS)
    options = parser.parse_args()
    if options.jobs < 1:
        parser.error('--jobs takes a number above 0')
    edits = read_edits(crates)
    if not edits:
        parser.error('bench/damage has no edits')
    known = {word for edit in edits for word in (edit.crate, edit.label)}
    for word in options.names:
        if word not in known:
            parser.error('bench/damage has no crate or edit %s' % word)
    if not options.list and not shutil.which('rt'):
        parser.error('there is no rt: put the folder bin of a Rattle kit on the PATH')
    named = set(options.names) or known
    return options, [it for it in edits if it.crate in named or it.label in named]


def main():
    crates = read_crates()
    options, edits = read_words(crates)
    if options.list:
        return show(edits, crates)
    for number in (signal.SIGTERM, signal.SIGHUP):
        if signal.getsignal(number) == signal.SIG_DFL:
            signal.signal(number, signal.default_int_handler)
    try:
        return try_and_tell(edits, crates, options)
    except KeyboardInterrupt:
        print('bench/damage.py: stopped', file=sys.stderr)
        return 130


if __name__ == '__main__':
    sys.exit(main())
