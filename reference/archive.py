#!/usr/bin/env python3
"""archive.py report: writes the report's input, crates/report/stdin. archive.py sample: writes the sample archive,
sample/archive.blk. archive.py made: writes 1,000 made records, to time the report on."""
import sys

from blocks import E, F, crowded, following, worked
from model import encoded, sealed


def marked(b, number, origin):
    return dict(head=b['head'][:6] + [origin], number=number, entries=b['entries'])


def changed(s, *changes, seal=True):
    s = list(s)
    for k, v in changes:
        s[k] = v
    return sealed(s) if seal else s


def archive():
    """E as production block 7, F as classroom block 8, refused records of every number, made blocks past the first 128
    records, refused ones again, a short tail."""
    e, f = encoded(marked(E, 7, 2)), encoded(marked(F, 8, 1))
    refused = [changed(f, (30, 2), seal=False), changed(e, (3, 50)), changed(e, (4, 61)), changed(f, (27, 1)),
               changed(e, (29, 0)), changed(f, (28 + 8 * 59, 1))]
    records, x = [e, f] + refused, 13
    for k in range(130):
        b = crowded(1 + k % 60, x)
        records.append(encoded(marked(b, 4294967295 * (129 - k) // 129, 1 + k % 2)))
        x = following(x)
    return b''.join(bytes(s) for s in records + refused + [e[:511]])


def sample():
    """Blocks A to I as classroom blocks 1 to 9, E again as production block 7 of another course, and damaged copies."""
    records = [encoded(marked(b, 1 + k, 1)) for k, b in enumerate(worked().values())]
    e = encoded(marked(E, 700, 2))
    x, plant = 14, []
    for n in (12, 24, 48, 60):
        plant.append(encoded(marked(crowded(n, x), 1000 + n, 2)))
        x = following(x)
    damaged = [changed(e, (31, 9), seal=False), changed(e, (10, 3)), changed(e, (29, 5))]
    return b''.join(bytes(s) for s in records + [e] + plant + damaged)


def made():
    """Sizes from 1 to 60."""
    records, x = [], 16
    for k in range(1000):
        records.append(encoded(marked(crowded(1 + k % 60, x), k, 1 + k % 2)))
        x = following(x)
    return b''.join(bytes(s) for s in records)


if __name__ == '__main__':
    archives = dict(report=archive, sample=sample, made=made)
    if len(sys.argv) != 2 or sys.argv[1] not in archives:
        sys.exit(__doc__)
    sys.stdout.buffer.write(archives[sys.argv[1]]())
