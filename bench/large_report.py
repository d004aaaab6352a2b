#!/usr/bin/env python3
"""bench/large_report.py [PROGRAM]: how long does a page of a large report take, and how much memory?

    bench/large_report.py events N > a.report    writes a made-up report of N events instead

The report is of one file that tasks open for reading and for writing in turn; in each fiftieth
round they overlap, which gives two violations. It is a report by its grammar, and isn't the report
of a run. The program is crates/imakern_view/out/imakern_view, or PROGRAM. Wanted of a million
events: at most 2 s, a page below 1,000,000 bytes, and at most 64 bytes of memory an event beside the
input. Status 1: it isn't so.
"""
import os, subprocess, sys, tempfile, time

TOP = os.path.dirname(os.path.dirname(os.path.abspath(__file__)))
BUILT = os.path.join(TOP, 'crates', 'imakern_view', 'out', 'imakern_view')
TASKS = 8
ZEROS, SHA1, SHA256 = '0' * 40, '7' * 40, 'b' * 64


class Made:
    """A report as it is made."""

    def __init__(self):
        self.events = ['0 birth']
        self.entries = ['10 %s ima-ng sha256:%s boot_aggregate' % (SHA1, SHA256)]
        self.replies = [[] for _ in range(TASKS)]
        self.violations = 0

    def event(self, task, step, rest):
        """One more event of the call that the task makes now; gives its place."""
        self.events.append('%d %d.%d.%d %s' % (
            len(self.events), task, len(self.replies[task]), step, rest))
        return len(self.events) - 1

    def reply(self, task, text):
        self.replies[task].append('%d %s' % (len(self.replies[task]), text))

    def entry(self, violation):
        """One more entry; gives its place."""
        self.violations += violation
        digests = (ZEROS, '0' * 64) if violation else (SHA1, SHA256)
        self.entries.append('10 %s ima-ng sha256:%s /var/log/busy' % digests)
        return len(self.entries) - 1

    def read(self, task, held):
        """A task reads the file, which others may hold for writing."""
        file = self.event(task, 0, 'count r = held')
        told = 'open-writers %d' % self.entry(True) if held else 'quiet'
        self.event(task, 1, 'check %d FILE_CHECK measure 10 ima-ng = %s' % (file, told))
        self.event(task, 2, 'take %d = begun' % file)
        self.event(task, 3, 'chunk %d = last' % file)
        self.event(task, 4, 'finish %d = added %d admitted' % (file, self.entry(False)))
        self.reply(task, 'ok')
        self.event(task, 0, 'read %d 0 4096 = 3' % file)
        self.reply(task, 'ok 3 ' + SHA256)
        return file

    def write(self, task, held):
        file = self.event(task, 0, 'count w = held')
        told = 'tomtou %d' % self.entry(True) if held else 'quiet'
        self.event(task, 1, 'check %d FILE_CHECK - = %s' % (file, told))
        self.reply(task, 'ok')
        self.event(task, 0, 'write %d 0 1 = done' % file)
        self.reply(task, 'ok')
        return file

    def close(self, task, file):
        self.event(task, 0, 'close %d = dropped' % file)
        self.reply(task, 'ok')

    def text(self):
        lines = ['imakern report 1', 'run done',
                 'list %d violations %d' % (len(self.entries), self.violations)]
        lines += self.entries
        lines += ['pcr sha1 10 ' + SHA1, 'pcr sha256 10 ' + SHA256]
        lines += ['inode 0 /var/log/busy writers 0 readers 0 execs 0', 'force sha256:' + SHA256,
                  'attrs 0', 'events %d' % len(self.events)]
        lines += self.events
        for task, replies in enumerate(self.replies):
            lines += ['task %d done' % task] + replies
        return '\n'.join(lines + ['end']) + '\n'


def report(events):
    made, turn = Made(), 0
    while len(made.events) + 11 <= events:
        reader, writer = turn % TASKS, (turn + 1) % TASKS
        if turn % 50 == 49:
            file = made.read(reader, False)
            other = made.write(writer, True)
            made.close(reader, file)
        else:
            other = made.write(writer, False)
            made.close(writer, other)
            file, writer, other = made.read(reader, False), reader, None
            made.close(reader, file)
        if other is not None:
            made.close(writer, other)
        turn += 1
    while len(made.events) < events:
        made.event(0, 0, 'count r = notfound')
    return made.text()


def measured(program, file):
    """Draws the page of the report in the file; gives its status, seconds, bytes and peak."""
    with tempfile.TemporaryFile() as page:
        began = time.monotonic()
        child = subprocess.Popen([program, 'page'], stdin=file, stdout=page)
        _, status, used = os.wait4(child.pid, 0)
        seconds = time.monotonic() - began
        child.returncode = os.waitstatus_to_exitcode(status)
        return child.returncode, seconds, page.seek(0, os.SEEK_END), used.ru_maxrss * 1024


def main():
    if sys.argv[1:2] == ['events']:
        sys.stdout.write(report(int(sys.argv[2])))
        return 0
    program, events = (sys.argv[1:] or [BUILT])[0], 1000000
    with tempfile.TemporaryFile() as file:
        # A child's peak counts what its parent held when it started it. So another process makes
        # the report, and this one stays small.
        subprocess.run([sys.executable, __file__, 'events', str(events)], stdout=file, check=True)
        size = file.seek(0, os.SEEK_END)
        file.seek(0)
        status, seconds, page, peak = measured(program, file)
    each = (peak - size) / events
    print('%d events, %d bytes: status %d, %.2f s, page %d bytes, peak %d bytes, %.0f an event '
          'beside the input' % (events, size, status, seconds, page, peak, each))
    good = status == 0 and seconds <= 2 and page < 1000000 and each <= 64
    return 0 if good else 1


sys.exit(main())
