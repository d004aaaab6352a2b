#!/usr/bin/env python3
"""bench/threads.py [RUNS]: what `threads 4` takes beside `threads 1`, by wall time.

It needs crates/imakern/out/imakern, which `rt ci` or `./imakern` builds. There are four scripts of
64 tasks each, and a text of buffers. In two of them each task opens, reads and closes a file of
262,144 bytes, once each a file of its own and once all the same one. In the third each task opens a
file of its own, cuts it to no byte and lengthens it again to 262,144 bytes, 250 times, and closes
it. In the fourth each task opens a file of its own of three bytes, writes, reads, sets its length
and closes it, 100 times. The fifth text is for `buffers`: 64 callers measure 128 buffers of 4,096
bytes each. Each of RUNS (41) rounds has a run on four threads, one on one thread, and four on one
thread each at once. It prints medians and ratios, and ends with status 1 if the ratio to a run on
one thread that is alone is above its limit. Run it with nothing else on the machine.

If four runs at once take more than 1.2 times as long as one alone, the machine gave less than four
processors: others had a part of them, or some are threads of one core, where a thread that is alone
runs faster than each of two. The ratio to a run on one thread that goes beside three others, so
that all processors are busy in both, is printed too; the limit isn't compared with it.
"""
import os, statistics, subprocess, sys, time

TOP = os.path.dirname(os.path.dirname(os.path.abspath(__file__)))
IMAKERN = os.path.join(TOP, 'crates', 'imakern', 'out', 'imakern')
RUNS = int(sys.argv[1]) if len(sys.argv) > 1 else 41
EXT4 = 'fs magic=0xef53 uuid=00000000-0000-0000-0000-000000000001 name=ext4 versions'
FILE = 'file /f%d fs=0 ino=%d gen=1 uid=0 gid=0 mode=100644 content=fill:%d:%02x'
TASK = 'task uid=0 euid=0 gid=0 egid=0'
READS = ['open 0 /f%d r', 'read 0 0 262144', 'close 0']
CUTS = ['open 0 /f%d rw'] + ['ftruncate 0 0', 'ftruncate 0 262144'] * 250 + ['close 0']
CHANGES = ['open 0 /f%d rw', 'write 0 0 txt:abc', 'read 0 0 3', 'ftruncate 0 3', 'close 0'] * 100


def script(files, length, calls, threads):
    lines = ['imakern 1', EXT4] + [FILE % (k, 100 + k, length, k) for k in range(files)]
    lines.append('rule measure func=FILE_CHECK mask=MAY_READ')
    for task in range(64):
        lines += [line.replace('%d', str(task % files)) for line in [TASK] + calls]
    return ('\n'.join(lines + ['threads %d' % threads]) + '\n').encode()


def buffers(threads):
    lines = ['imabuffers 1', 'rule measure func=CRITICAL_DATA']
    for caller in range(64):
        lines.append('caller uid=0 euid=0 gid=0 egid=0')
        lines += ['critical c%d.%d fill:4096:%02x' % (caller, k, k) for k in range(128)]
    return ('\n'.join(lines + ['threads %d' % threads]) + '\n').encode()


def at_once(text, count):
    begun = time.perf_counter()
    command = 'buffers' if text.startswith(b'imabuffers') else 'run'
    runs = [subprocess.Popen([IMAKERN, command], stdin=subprocess.PIPE, stdout=subprocess.DEVNULL)
            for _ in range(count)]
    for run in runs:
        run.stdin.write(text)
        run.stdin.close()
    for run in runs:
        if run.wait() != 0:
            sys.exit('a run failed')
    return time.perf_counter() - begun


def measure(name, text, limit):
    four, one = text(4), text(1)
    at_once(four, 1), at_once(one, 1)
    rounds = [(at_once(four, 1), at_once(one, 1), at_once(one, 4)) for _ in range(RUNS)]
    on_four, alone, beside = [statistics.median(times) for times in zip(*rounds)]
    print('%s: %.1f ms on four threads, %.1f ms on one, %.3f times (limit %s)' % (
        name, on_four * 1e3, alone * 1e3, on_four / alone, limit))
    print('  %.1f ms on one beside three others, %.2f times alone; %.3f times' % (
        beside * 1e3, beside / alone, on_four / beside), flush=True)
    return on_four <= limit * alone


print('%d processors' % os.cpu_count())
met = [
    measure('a file each', lambda n: script(64, 262144, READS, n), 0.4),
    measure('all on one', lambda n: script(1, 262144, READS, n), 1.3),
    measure('cut and lengthened', lambda n: script(64, 262144, CUTS, n), 0.45),
    measure('three bytes', lambda n: script(64, 3, CHANGES, n), 1.0),
    measure('64 callers of buffers', buffers, 0.4),
]
sys.exit(0 if all(met) else 1)
