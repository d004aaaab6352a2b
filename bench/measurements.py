#!/usr/bin/env python3
"""measurements.py binary|replay|registers BANK: reads what `imakern run` or `imakern list` printed.

    binary          the list as /sys/kernel/security/ima/binary_runtime_measurements has it, with
                    little-endian numbers (docs/FORMATS.md has the lines and the records)
    replay          the registers, computed again from the ASCII list alone; status 1 if an entry's
                    template digest isn't the one of its fields
    registers BANK  the registers that imakern printed, as a file for `evmctl --pcrs BANK,FILE`: all
                    24 from 0 on, since evmctl passes over what follows a number left out
"""
import hashlib, re, struct, sys

SIZES = {'sha1': 20, 'sha256': 32}
TEMPLATES = ('ima', 'ima-ng', 'ima-sig')
LINE = re.compile('([ 0-9][0-9]) ([0-9a-f]{40}) (%s) (.*)' % '|'.join(TEMPLATES))
FIELDS = re.compile('(?:([a-z0-9]+):)?([0-9a-f]*) ([^ ]+)(?: ([0-9a-f]*))?')


def sized(data):
    return struct.pack('<I', len(data)) + data


def entries(text):
    """Of each line of the list: PCR, SHA-1 template digest, name of the template, fields."""
    for line in text.split('\n'):
        found = LINE.fullmatch(line)
        if found:
            pcr, digest, name, rest = found.groups()
            algo, value, path, sig = FIELDS.fullmatch(rest).groups()
            fields = [bytes.fromhex(value), path.encode()]
            if name != 'ima':
                fields = [algo.encode() + b':\0' + fields[0], fields[1] + b'\0']
            if name == 'ima-sig':
                fields.append(bytes.fromhex(sig))
            yield int(pcr), bytes.fromhex(digest), name, fields


def template_data(name, fields):
    if name == 'ima':
        return fields[0] + fields[1].ljust(256, b'\0')
    return b''.join(map(sized, fields))


def record(pcr, digest, name, fields):
    """The binary form of an entry. Under `ima` the digest has no length."""
    data = fields[0] + sized(fields[1])
    if name != 'ima':
        data = sized(template_data(name, fields))
    return struct.pack('<I', pcr) + digest + sized(name.encode()) + data


def replay(text):
    registers, status = {}, 0
    for pcr, digest, name, fields in entries(text):
        data = template_data(name, fields)
        is_violation = not any(digest)
        if not is_violation and digest != hashlib.sha1(data).digest():
            print('wrong template digest:', digest.hex())
            status = 1
        for bank, size in SIZES.items():
            added = b'\xff' * size if is_violation else hashlib.new(bank, data).digest()
            old = registers.get((pcr, bank), bytes(size))
            registers[pcr, bank] = hashlib.new(bank, old + added).digest()
    for pcr, bank in sorted(registers):
        print('pcr', bank, pcr, registers[pcr, bank].hex())
    return status


def registers(text, bank):
    values = ['00' * SIZES[bank]] * 24
    for pcr, value in re.findall('^pcr %s ([0-9]+) ([0-9a-f]+)$' % bank, text, re.M):
        values[int(pcr)] = value
    return ''.join('PCR-%02d: %s\n' % numbered for numbered in enumerate(values))


def main(words):
    if words == ['binary']:
        records = [record(*entry) for entry in entries(sys.stdin.read())]
        sys.stdout.buffer.write(b''.join(records))
    elif words == ['replay']:
        return replay(sys.stdin.read())
    elif len(words) == 2 and words[0] == 'registers' and words[1] in SIZES:
        sys.stdout.write(registers(sys.stdin.read(), words[1]))
    else:
        return __doc__


if __name__ == '__main__':
    sys.exit(main(sys.argv[1:]))
