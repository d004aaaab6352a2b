#!/usr/bin/env python3
"""bench/audit.py [RUNS]: what `audit` costs beside `run` and the hashes of the audited contents.

It measures as bench/run.py does, with the same two programs. bench/README.md has the limits.
"""
import sys
from run import (FILE, HASHES, HEAD, IMAKERN, RULE, TASK, failed, generated, judge, once, peak,
                 small_calls, text, users)

AUDIT, RUN = [IMAKERN, 'audit'], [IMAKERN, 'run']


def audited(script, report):
    """The lengths of the contents that checks audit, each once between two changes."""
    sizes = [int(line.rsplit(':', 2)[1]) for line in script.split('\n') if line.startswith('file ')]
    lengths = []
    for line in report.split('\n'):
        words = line.split(' ')
        if line.startswith('inode '):
            size, kept = sizes[int(words[1])], False
        elif ' check ' in line and ' audit' in line and not kept:
            lengths.append(size)
            kept = True
        elif ' write ' in line and line.endswith(' = done'):
            size, kept = max(size, int(words[4]) + int(words[5])), False
    return lengths


def beside_run(name, script, limit):
    """The user time of `audit` against that of `run` and the hashes of what it audits."""
    lengths = audited(script.decode(), once(RUN, script)[0].decode())
    orders = ''.join('sha256 %d 1\n' % length for length in lengths).encode()
    ours, run, theirs, idle = users((AUDIT, script), (RUN, script), ([HASHES], orders),
                                    ([HASHES], b''))
    times = ours / (run + theirs - idle)
    judge(name, times, limit, '%.2f times: %.1f ms for %.1f ms of a run and %d hashes' % (
        times, ours * 1e3, (run + theirs - idle) * 1e3, len(lengths)))


def memory(name, script, contents):
    held, given = peak(AUDIT, script), len(script) + contents + len(once(AUDIT, script)[0])
    judge(name, held / given, 3, '%.2f times: %.1f MB for %.1f MB' % (
        held / given, held / 1e6, given / 1e6))


def refused_opens():
    """32,768 opens of one file without a label in mode enforce, each refused and closed at once."""
    each = [TASK] + ['open 0 /f0 r'] * 2048
    return text([HEAD[0], 'appraise enforce', HEAD[1], FILE % (0, 100, 262144, 0)],
                ['rule appraise', 'rule audit'], each * 16, ['rounds'])


def main():
    made = generated(1).replace(b'rule ', b'rule audit\nrule ', 1)
    opens, calls = refused_opens(), small_calls(32768, 64, ('rule audit', RULE))
    beside_run('the script of gen 1, every check audited', made, 1.25)
    beside_run('32,768 opens of one file of 262,144 bytes', opens, 1.3)
    other = ['rule audit func=MODULE_CHECK uid=%d' % k for k in range(1023)]
    few, most = (small_calls(32768, 64, other[:n] + ['rule audit']) for n in (9, 1023))
    many, ten = users((AUDIT, most), (AUDIT, few))
    judge('32,768 calls under 1,024 rules to under 10', many / ten, 1.5,
          '%.2f times' % (many / ten))
    memory('memory of 32,768 opens', opens, 262144)
    memory('memory of 32,768 calls', calls, 64 * 100)
    sys.exit('above the limit: ' + '; '.join(failed) if failed else 0)


main()
