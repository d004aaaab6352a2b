#!/usr/bin/env python3
"""bench/list.py [RUNS]: the user time of `imakern list` on the largest list texts, and of hashing
their contents by sha256sum and sha1sum. Run it after `rt ci`, which builds
crates/imakern/out/imakern."""
import os, resource, subprocess, sys, tempfile

top = os.path.dirname(os.path.dirname(os.path.abspath(__file__)))
program = os.path.join(top, 'crates', 'imakern', 'out', 'imakern')
runs = int(sys.argv[1]) if len(sys.argv) > 1 else 15


def text(files, size):
    lines = ['file /f%d txt:%s' % (i, chr(97 + i % 26) * size) for i in range(files)]
    return '\n'.join(['imalist 1'] + lines + ['end', '']).encode()


def least_user_time(words, data):
    best = None
    for _ in range(runs):
        before = resource.getrusage(resource.RUSAGE_CHILDREN).ru_utime
        with tempfile.TemporaryFile() as given:
            given.write(data)
            given.seek(0)
            subprocess.run(words, stdin=given, stdout=subprocess.DEVNULL, check=True)
        spent = resource.getrusage(resource.RUSAGE_CHILDREN).ru_utime - before
        best = spent if best is None or spent < best else best
    return best * 1000


for files, size in [(15, 262144), (256, 16360)]:
    data = text(files, size)
    ours = least_user_time([program, 'list'], data)
    sums = least_user_time(['sha256sum'], data) + least_user_time(['sha1sum'], data)
    print('%d files of %d bytes: list %.1f ms, sha256sum and sha1sum %.1f ms' % (
        files, size, ours, sums))
