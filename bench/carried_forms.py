#!/usr/bin/env python3
"""bench/carried_forms.py [PROGRAM]: does `carry` read hostile forms as a second reading does?

The forms are a good one of three records with each byte changed to each of 0, 1 and 255, the same
one cut at each length, and some whose numbers are too large. For each, `carry` has to refuse it for
the cause that the reading below gives, or print a list that goes on from it: its carried form has
to be the very records that were read and the boot aggregate, if it is new. Each run reads one form.

The program is crates/imakern/out/imakern, which ./imakern builds, or PROGRAM. Status 1: a form is
read in another way.
"""
import hashlib, os, subprocess, sys

TOP = os.path.dirname(os.path.dirname(os.path.abspath(__file__)))
BUILT = os.path.join(TOP, 'crates', 'imakern', 'out', 'imakern')
PROGRAM = (sys.argv[1:] or [BUILT])[0]
SIZES = {b'md5': 16, b'sha1': 20, b'sha224': 28, b'sha256': 32, b'sha384': 48, b'sha512': 64}
IMA, IMA_NG, IMA_SIG, IMA_BUF = range(4)


# ---- writing

def little(n, size):
    return n.to_bytes(size, 'little')


def sized(field):
    return little(len(field), 4) + field


def ng_data(digest, name, third=None):
    data = sized(b'sha256:\0' + digest) + sized(name + b'\0')
    return data if third is None else data + sized(third)


def record(template, data, violation=0, pcr=10):
    return bytes([violation]) + little(pcr, 4) + bytes([template]) + sized(data)


def form(records, count=None):
    body = b''.join(records)
    return (b'IMAL' + little(1, 4) + little(len(records) if count is None else count, 8)
            + little(24 + len(body), 8) + body)


# ---- reading

def number(b):
    return int.from_bytes(b, 'little')


def cut(b):
    """The field at the front, after its length, and the bytes after it."""
    if len(b) < 4 or len(b) - 4 < number(b[:4]):
        return None
    end = 4 + number(b[:4])
    return b[4:end], b[end:]


def is_name(name, most):
    return 1 <= len(name) <= most and all(0x21 <= c <= 0x7e for c in name)


def ima_fields(data):
    """The digest and the name in template data of `ima`."""
    name = data[20:].rstrip(b'\0')
    if len(data) != 276 or not is_name(name, 255):
        return None
    return data[:20], b''


def ng_fields(template, data):
    """The digest and the third field in template data of the other templates."""
    first = cut(data)
    if not first:
        return None
    algo, _, digest = first[0].partition(b':\0')
    second = cut(first[1])
    if SIZES.get(algo) != len(digest) or first[0] != algo + b':\0' + digest or not second:
        return None
    if second[0][-1:] != b'\0' or not is_name(second[0][:-1], 1024):
        return None
    if template == IMA_NG:
        return None if second[1] else (digest, b'')
    third = cut(second[1])
    return None if not third or third[1] or len(third[0]) > 4096 else (digest, third[0])


def first_record(b):
    """The length of the first record, if it is that of a valid entry."""
    if len(b) < 10 or b[0] > 1 or b[5] > IMA_BUF or number(b[1:5]) > 23 or not cut(b[6:]):
        return None
    data, rest = cut(b[6:])
    fields = ima_fields(data) if b[5] == IMA else ng_fields(b[5], data)
    if not fields:
        return None
    if b[0] and (number(b[1:5]) != 10 or any(fields[0]) or fields[1] or b[5] == IMA_BUF):
        return None
    return len(b) - len(rest)


def reading(b):
    """The records, or the first cause that holds."""
    if len(b) < 24 or b[:8] != b'IMAL\1\0\0\0' or number(b[8:16]) == 0:
        return 'header'
    if len(b) != number(b[16:24]):
        return 'short' if len(b) < number(b[16:24]) else 'trailing'
    records, rest = [], b[24:]
    while rest and len(records) < number(b[8:16]):
        length = first_record(rest)
        if not length:
            return 'record'
        records.append(rest[:length])
        rest = rest[length:]
    if rest or len(records) != number(b[8:16]):
        return 'record'
    entries = [r for r in records if r[0] == 0]
    return 'twice' if len(set(entries)) < len(entries) else records


# ---- forms

def forms():
    abc = hashlib.sha256(b'abc').digest()
    boot = record(IMA_NG, ng_data(bytes(32), b'boot_aggregate'))
    old = record(IMA, hashlib.sha1(b'abc').digest() + b'/a'.ljust(256, b'\0'))
    good = form([boot, old, record(IMA_SIG, ng_data(abc, b'/a', b'\3\2'), pcr=9)])
    yield 'good', good
    for at in range(len(good)):
        yield 'cut at %d' % at, good[:at]
        for to in (0, 1, 255):
            if good[at] != to:
                yield 'byte %d is %d' % (at, to), good[:at] + bytes([to]) + good[at + 1:]
    entry = record(IMA_NG, ng_data(abc, b'/a'))
    tomtou = record(IMA_NG, ng_data(bytes(32), b'/a'), violation=1)
    yield 'twice', form([entry, entry])
    yield 'two violations', form([tomtou, tomtou])
    yield 'names that no path has', form([record(IMA, bytes(20) + b'a/'.ljust(256, b'\0')),
                                          record(IMA, bytes(20) + b'/'.ljust(256, b'\0'), 1)])
    yield 'the greatest count', form([entry], 2 ** 64 - 1)
    yield 'the greatest length', form([entry])[:16] + little(2 ** 64 - 1, 8) + form([entry])[24:]
    yield 'a field of the greatest length', form([entry[:6] + little(2 ** 32 - 1, 4) + entry[10:]])


def answer(b):
    """What `carry` makes of the form: the cause, or the carried form that it prints."""
    text = 'imacarry 1\ncarried hex:%s\nboot fill:32:00\nend\n' % b.hex()
    got = subprocess.run([PROGRAM, 'carry'], input=text, capture_output=True, text=True)
    if got.returncode == 2 and got.stderr.startswith('line 2: bad-carried ') and not got.stdout:
        return got.stderr.split()[-1]
    if got.returncode == 0 and not got.stderr:
        return bytes.fromhex(got.stdout.rsplit('carried hex:', 1)[1].strip())
    return got


def wanted(b):
    said = reading(b)
    if isinstance(said, str):
        return said
    boot = record(IMA_NG, ng_data(bytes(32), b'boot_aggregate'))
    return form(said if boot in said else said + [boot])


def main():
    count, differ = 0, 0
    for name, b in forms():
        count += 1
        if answer(b) != wanted(b):
            differ += 1
            print('%s: %r, and not %r' % (name, answer(b), wanted(b)))
    print('%d forms, %d are read in another way' % (count, differ))
    sys.exit(1 if differ else 0)


main()
