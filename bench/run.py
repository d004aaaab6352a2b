#!/usr/bin/env python3
"""bench/run.py [RUNS]: what `run`, `gen`, `buffers` and `carry` cost beside the hashes that they
compute, and what `loads` costs beside `run`.

It needs the two programs crates/imakern/out/imakern and crates/kit_hashes/out/kit_hashes, which
`rt ci` leaves there (`./imakern` builds the first, `rt run </dev/null` in crates/kit_hashes the
second). Each time is the mean user time over RUNS rounds (7), in which the program and the hashes
take turns, so that other work on the machine slows both. It prints a line for each measurement, and
ends with status 1 if one is above its limit. bench/README.md says what is measured and why.
"""
import os, re, resource, select, subprocess, sys, tempfile, time
from collections import Counter

TOP = os.path.dirname(os.path.dirname(os.path.abspath(__file__)))
IMAKERN = os.path.join(TOP, 'crates', 'imakern', 'out', 'imakern')
HASHES = os.path.join(TOP, 'crates', 'kit_hashes', 'out', 'kit_hashes')
RUNS = int(sys.argv[1]) if len(sys.argv) > 1 else 7
EXT4 = 'fs magic=0xef53 uuid=00000000-0000-0000-0000-000000000001 name=ext4 versions'
HEAD = ['imakern 1', EXT4]
FILE = 'file /f%d fs=0 ino=%d gen=1 uid=0 gid=0 mode=100644 content=fill:%d:%02x'
TASK = 'task uid=0 euid=0 gid=0 egid=0'
RULE = 'rule measure func=FILE_CHECK mask=MAY_READ'
PIECE = 4096  # a collection reads a file in pieces of this many bytes
failed = []


# ---- scripts

def files(count, size):
    return [FILE % (k, 100 + k, size, k % 256) for k in range(count)]


def text(*parts):
    return ('\n'.join(line for part in parts for line in part) + '\n').encode()


def large_files():
    """64 files of 262,144 bytes, each opened, read whole and closed once."""
    calls = []
    for k in range(64):
        calls += ['open 0 /f%d r' % k, 'read 0 0 262144', 'close 0']
    return text(HEAD, files(64, 262144), [RULE, TASK], calls, ['rounds'])


def small_calls(calls, count, rules=(RULE,)):
    """So many calls by 16 tasks that open, read and close small files in turn, and post."""
    tasks, each = [], calls // 16
    for t in range(16):
        tasks.append(TASK)
        for n in range(each // 3):
            tasks += ['open 0 /f%d r' % ((n * 16 + t) % count), 'read 0 0 4096', 'close 0']
        tasks += ['post 0'] * (each % 3)
    return text(HEAD, files(count, 100), rules, tasks, ['rounds'])


def modules(calls):
    """So many `module` calls of one small file that is measured, by 16 tasks in turn."""
    tasks = [TASK] + ['module /f0'] * (calls // 16)
    return text(HEAD, files(1, 100), ['rule measure func=MODULE_CHECK'], tasks * 16, ['rounds'])


def generated(number):
    """The script that `gen NUMBER` runs, after docs/FORMATS.md."""
    x = number

    def draw(k):
        nonlocal x
        x = (x * 6364136223846793005 + 1442695040888963407) % 2 ** 64
        return (x >> 33) % k

    lines = ['imakern 1', 'hash sha256', 'template ima-ng', 'appraise enforce', 'evm fill:32:5a']
    lines.append(EXT4)
    for i in range(64):
        lines += [FILE % (i, 100 + i, draw(20000), i), 'seal']
    lines += [RULE, 'rule appraise func=FILE_CHECK fowner=0']
    for t in range(16):
        lines.append(TASK + ' admin')
        for _ in range(64):
            f, g = draw(64), draw(4)
            if g < 3:
                lines += ['open 0 /f%d r' % f, 'read 0 0 4096', 'close 0']
            else:
                at, size = draw(1000), 1 + draw(100)
                lines += ['open 0 /f%d w' % f, 'write 0 %d fill:%d:%02x' % (at, size, t), 'close 0']
    return text(lines, ['rounds'])


def record(k):
    """The carried record of an entry by MD5 with a name of one byte: 41 bytes."""
    digest = b'md5:\0' + k.to_bytes(16, 'little')
    data = b'\x15\0\0\0' + digest + b'\2\0\0\0a\0'
    return b'\0\x0a\0\0\0\1' + len(data).to_bytes(4, 'little') + data


def carry_text(count):
    """A carry text whose list has so many entries."""
    body = b''.join(record(k) for k in range(count))
    form = b'IMAL\1\0\0\0' + count.to_bytes(8, 'little') + (24 + len(body)).to_bytes(8, 'little')
    carried = 'carried hex:' + (form + body).hex()
    return text(['imacarry 1', carried, 'boot fill:32:00', 'end'])


def buffers(callers, each, value, rules=()):
    """Callers that measure so many buffers each, all of them different, on one thread."""
    lines = ['imabuffers 1'] + list(rules) + ['rule measure func=CRITICAL_DATA']
    for c in range(callers):
        lines.append('caller uid=0 euid=0 gid=0 egid=0')
        lines += ['critical c%02d.%03d %s' % (c, k, value % (k % 256)) for k in range(each)]
    return text(lines, ['threads 1'])


# ---- what a run has to hash, from its script and its report

def hmac(needs, message):
    needs['sha1', 64 + message] += 1
    needs['sha1', 84] += 1


def needed(script, report):
    """The hashes of a run under the default settings: the times of each (algorithm, bytes).

    Each collection is hashed by SHA-256 and SHA-1, each read by SHA-256. An entry that is added is
    hashed by both and extends both banks; one that is there already is found by its SHA-256. Where
    there is a key, a seal, a label that a close writes and a verdict that ends a collection cost
    an HMAC of the label's 34 bytes and 24 of metadata.
    """
    needs, keyed = Counter(), '\nevm ' in script
    sizes = []
    for line in script.split('\n'):
        if line.startswith('file '):
            sizes.append(int(re.search(r'fill:(\d+):', line)[1]))
        elif line == 'seal':
            needs['sha256', sizes[-1]] += 1
            hmac(needs, 34 + 24)
    size = collected = chunk = name = 0

    def entry(told):
        if 'already' in told or 'added' in told:
            needs['sha256', name] += 1
        if 'added' in told:
            needs['sha1', name] += 1
            needs['sha1', 40] += 1
            needs['sha256', 64] += 1
        elif 'tomtou' in told or 'open-writers' in told:
            needs['sha1', 40] += 1
            needs['sha256', 64] += 1

    entry('added')
    for line in report.split('\n'):
        words = line.split(' ')
        if line.startswith('inode '):
            size, name = sizes[int(words[1])], 49 + len(words[2])
        if ' = ' not in line:
            continue
        deed, told = words[2], line.split(' = ')[1]
        if told == 'begun':
            collected = chunk = 0
        elif deed in ('chunk', 'close-chunk'):
            collected += max(0, min(PIECE, size - PIECE * chunk))
            chunk += 1
        elif deed in ('finish', 'close-finish'):
            needs['sha256', collected] += 1
            needs['sha1', collected] += 1
            if keyed and ('pass' in told or 'deny' in told or 'labelled' in told):
                hmac(needs, 34 + 24)
        elif deed == 'read':
            needs['sha256', int(told)] += 1
        elif deed == 'write':
            size = max(size, int(words[4]) + int(words[5]))
        entry(told)
    return needs


def needed_by_buffers(count, size):
    """The hashes of so many buffers of this size, each with a name of 7 bytes and each added: the
    value by SHA-256, the template data and the extends by both banks."""
    data = 4 + len('sha256:') + 1 + 32 + 4 + 7 + 1 + 4 + size
    return Counter({('sha256', size): count, ('sha256', data): count, ('sha1', data): count,
                    ('sha256', 64): count, ('sha1', 40): count})


def events_of(report):
    return sum(int(n) for n in re.findall(r'(?m)^events (\d+)$', report))


# ---- measuring

def once(words, data):
    """The output of one run, its user time, and its user and system time, in seconds."""
    with tempfile.TemporaryFile() as given, tempfile.TemporaryFile() as taken:
        given.write(data)
        given.seek(0)
        before = resource.getrusage(resource.RUSAGE_CHILDREN)
        subprocess.run(words, stdin=given, stdout=taken, stderr=subprocess.DEVNULL, check=True)
        after = resource.getrusage(resource.RUSAGE_CHILDREN)
        user, system = after.ru_utime - before.ru_utime, after.ru_stime - before.ru_stime
        taken.seek(0)
        return taken.read(), user, user + system


def users(*jobs):
    """The mean user time of each job, over RUNS rounds of all of them.

    A kernel may know how much of a run was user time only from samples, one in some milliseconds.
    So a job is run as often in each round as it takes to fill a fifth of a second.
    """
    often = [max(1, round(0.2 / max(once(*job)[2], 0.001))) for job in jobs]
    spent = [0.0 for _ in jobs]
    for _ in range(RUNS):
        for at, job in enumerate(jobs):
            spent[at] += sum(once(*job)[1] for _ in range(often[at]))
    return [s / RUNS / n for s, n in zip(spent, often)]


def peak(words, data):
    """The most memory that the run held, in bytes. Its output is whole before it is written, and is
    longer than a pipe holds, so the program waits in its first write and can be looked at."""
    with tempfile.TemporaryFile() as given:
        given.write(data)
        given.seek(0)
        run = subprocess.Popen(words, stdin=given, stdout=subprocess.PIPE)
        select.select([run.stdout], [], [])
        time.sleep(0.05)
        with open('/proc/%d/status' % run.pid) as status:
            held = int(re.search(r'VmHWM:\s+(\d+) kB', status.read())[1]) * 1024
        run.stdout.read()
        run.wait()
        return held


def judge(name, value, limit, shown):
    over = value > limit
    if over:
        failed.append(name)
    print('%-52s %s (limit %s)%s' % (name, shown, limit, '  ABOVE' if over else ''), flush=True)


def against_hashes(name, words, data, script, report):
    """The user time of a run against that of its hashes and a microsecond for each event."""
    of_hashes(name, words, data, needed(script.decode(), report), events_of(report), 'events')


def of_hashes(name, words, data, needs, count, what):
    """The user time against that of these hashes and a microsecond for each of what is counted."""
    orders = ''.join('%s %d %d\n' % (algo, size, n) for (algo, size), n in sorted(needs.items()))
    ours, theirs, idle = users((words, data), ([HASHES], orders.encode()), ([HASHES], b''))
    hashes = theirs - idle
    times = ours / (hashes + count * 1e-6)
    judge(name, times, 1.2, '%.2f times: %.1f ms for %.1f ms of hashes and %d %s' % (
        times, ours * 1e3, hashes * 1e3, count, what))


def memory(name, script, contents, words=(IMAKERN, 'run')):
    output = once(words, script)[0]
    held, given = peak(words, script), len(script) + contents + len(output)
    judge(name, held / given, 3, '%.2f times: %.1f MB for %.1f MB' % (
        held / given, held / 1e6, given / 1e6))


def knows_gen():
    tried = subprocess.run([IMAKERN, 'gen', '1'], stdin=subprocess.DEVNULL, capture_output=True)
    return tried.returncode == 0


def step(script):
    """The user time of a run for each of its events, and how many they are."""
    events = events_of(once([IMAKERN, 'run'], script)[0].decode())
    return users(([IMAKERN, 'run'], script))[0] / events * 1e6, events


def steps():
    """A step's cost at growing lengths of the journals, of the program and of the rules."""
    for kind, count in (('one file', 1), ('256 files', 256)):
        costs = []
        for calls in (1024, 10240, 32768):
            cost, events = step(small_calls(calls, count))
            costs.append(cost)
            print('  %s, %d calls, %d events: %.2f us a step' % (kind, calls, events, cost))
        judge('a step of %s, 32,768 calls to 1,024' % kind, costs[2] / costs[0], 1.5,
              '%.2f times' % (costs[2] / costs[0]))
    other = ['rule dont_measure func=MODULE_CHECK uid=%d' % k for k in range(999)]
    few, most = other[:9] + [RULE], other + [RULE]
    costs = [step(small_calls(32768, 64, rules))[0] for rules in (few, most)]
    judge('a step under 1,000 rules to one under 10', costs[1] / costs[0], 1.5,
          '%.2f times: %.2f and %.2f us' % (costs[1] / costs[0], costs[1], costs[0]))


def carried():
    """A list of 48,000 entries that goes on, a list half as long, and a form that is refused."""
    carry, count = [IMAKERN, 'carry'], 48000
    large, half = carry_text(count), carry_text(count // 2)
    orders = ''.join('%s %d %d\n' % (algo, size, count) for algo, size in (
        ('sha1', 31), ('sha1', 40), ('sha256', 31), ('sha256', 64)))
    ours, fewer, theirs, idle = users(
        (carry, large), (carry, half), ([HASHES], orders.encode()), ([HASHES], b''))
    times = ours / (theirs - idle + count * 1e-6)
    judge('a carried list of 48,000 entries', times, 1.3, '%.2f times: %.1f ms for %.1f ms of '
          'hashes' % (times, ours * 1e3, (theirs - idle) * 1e3))
    judge('48,000 entries to 24,000', ours / fewer, 2.2, '%.2f times' % (ours / fewer))
    output = once(carry, large)[0]
    given, held = len(large) + 24 + 41 * count + len(output), peak(carry, large)
    judge('memory, a carried list of 48,000 entries', held / given, 3, '%.2f times: %.1f MB for '
          '%.1f MB' % (held / given, held / 1e6, given / 1e6))
    bad = text(['imacarry 1', 'carried fill:4194304:49', 'boot fill:32:00', 'end'])
    refused = users((['sh', '-c', '"$0" carry || true', IMAKERN], bad))[0]
    judge('a form of 4,194,304 bytes that is refused', refused, 0.1, '%.3f s' % refused)


def of_buffers():
    """What `buffers` costs: beside its hashes, at growing numbers of buffers and of rules, and in
    memory."""
    command = [IMAKERN, 'buffers']
    large = buffers(64, 128, 'fill:4096:%02x')
    of_hashes('64 callers of 128 buffers of 4,096 bytes', command, large,
              needed_by_buffers(8192, 4096), 8192, 'buffers')
    memory('their memory', large, 8192 * 4096, command)
    most, half = buffers(64, 512, 'fill:16:%02x'), buffers(64, 256, 'fill:16:%02x')
    whole, part = users((command, most), (command, half))
    judge('32,768 buffers to 16,384', whole / part, 2.2, '%.2f times: %.1f and %.1f ms' % (
        whole / part, whole * 1e3, part * 1e3))
    other = ['rule measure func=CRITICAL_DATA uid=%d' % (k + 1) for k in range(1023)]
    many, few = [buffers(64, 512, 'fill:16:%02x', other[:k]) for k in (1023, 9)]
    whole, part = users((command, many), (command, few))
    judge('32,768 buffers under 1,024 rules to 10', whole / part, 1.3,
          '%.2f times: %.1f and %.1f ms' % (whole / part, whole * 1e3, part * 1e3))


def kernel_reads():
    """What `loads` costs beside `run`, at growing numbers of calls, and what memory it takes."""
    loads = (IMAKERN, 'loads')
    most, half = modules(32768), modules(16384)
    whole, part, alone = users((loads, most), (loads, half), ((IMAKERN, 'run'), most))
    for other, spent, limit in (('`run`', alone, 1.2), ('16,384', part, 2.2)):
        judge('`loads` of 32,768 modules to ' + other, whole / spent, limit,
              '%.2f times: %.1f and %.1f ms' % (whole / spent, whole * 1e3, spent * 1e3))
    memory('memory of `loads` of 32,768 modules', most, 100, loads)


def main():
    for program in (IMAKERN, HASHES):
        if not os.path.exists(program):
            sys.exit('%s is not built: run `rt ci` first' % os.path.relpath(program, TOP))
    run = [IMAKERN, 'run']
    made, large = generated(1), large_files()
    small, half = small_calls(32768, 64), small_calls(16384, 64)
    scripts = {'the script of gen 1': made, '64 files of 262,144 bytes, read once': large,
               '32,768 calls of small files': small}
    for name, script in scripts.items():
        report = once(run, script)[0].decode()
        against_hashes(name, run, script, script, report)
        if script is made and knows_gen():
            against_hashes('gen 1', [IMAKERN, 'gen', '1'], b'', script, report)
    rest = text(HEAD, ['rounds'])
    comment = b'#' * (4194304 - len(rest) - 1) + b'\n' + rest
    comments = b'# a comment\n' * 349500 + rest
    for name, script in (('4 MiB of one comment', comment), ('4 MiB of short comments', comments)):
        spent = users((run, script))[0]
        judge(name, spent, 0.2, '%.3f s' % spent)
    whole, part = users((run, small), (run, half))
    judge('32,768 calls to 16,384', whole / part, 2.2, '%.2f times: %.1f and %.1f ms' % (
        whole / part, whole * 1e3, part * 1e3))
    memory('memory of 64 files of 262,144 bytes', large, 64 * 262144)
    memory('memory of 32,768 calls', small, 64 * 100)
    steps()
    of_buffers()
    carried()
    kernel_reads()
    sys.exit('above the limit: ' + '; '.join(failed) if failed else 0)


if __name__ == '__main__':
    main()
