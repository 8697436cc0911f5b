#!/usr/bin/env python3
"""expected.py NAME: prints what the program NAME (trial_record, trial_play, trial_analysis or report) must write, from the model's rules.
`python3 reference/expected.py NAME | diff - crates/NAME/stdout` prints nothing. Counts of agreement are taken for granted: that
the program agrees with its second opinion is asked of the program."""
import struct
import sys

from archive import archive
from blocks import (E, block, chain, crowded, drawn, drawn_latencies, following, highest, lowest, of_block_i, spoiled, worked)
from model import (FIRST_STATE, analysed, before, cycled, decoded, encoded, judged, played, result, sealed, table, verdict,
                   walked)


# ---- the lines
def summed(so_far, numbers):
    for x in numbers:
        so_far = (so_far * 65599 + x) % 4294967291
    return so_far


def sum_state(so_far, state):
    return summed(so_far, [state[0]] + [65535 if x is None else x for x in state[1]])


def filled(numbers, room):
    return numbers + [43690] * (room - len(numbers))


def said(v):
    return ' accepted' if v == (0, 0) else ' refused %d at %d' % v


def vector(n, e, second=None):
    entries = [list(e) if i < n else [0] * 6 for i in range(60)]
    if second:
        entries[1] = second
    return dict(head=[n, 4, 8, 1, 1, 1, 2], number=4000000007, entries=entries)


def both(name, b):
    s = encoded(b)
    print('%s  write%s  read%s' % (name, said(verdict(s, (4, 5))), said(verdict(s))))


def vectors():
    e = [1, 1, 4, 63, 255, 63]
    both('n 0', vector(0, e))
    both('n 61', vector(61, e))
    both('n 60', vector(60, e))
    for name, second in (
            ('lo 0', [1, 0, 4, 63, 255, 63]), ('lo above hi', [1, 5, 4, 63, 255, 63]), ('writes 63', e),
            ('writes 255', [1, 1, 4, 255, 255, 63]), ('writes 64', [1, 1, 4, 64, 255, 63]),
            ('reads 64 first', [1, 1, 4, 1, 64, 63]), ('reads 254 second', [1, 1, 4, 1, 0, 254])):
        both(name, vector(2, e, second))
    s = encoded(vector(2, e))
    s[0] = ord('C')
    print('wrong letters, wrong check  read' + said(verdict(s)))
    print('wrong letters, right check  read' + said(verdict(sealed(s))))
    for n in (0, 1, 511, 512, 513, 100000):
        print('%d bytes  read%s' % (n, said(verdict([0] * n))))
    for n in (0, 511, 512, 513, 100000):
        print('output of %d bytes  write%s' % (n, said((0, 0) if n == 512 else (6, 0))))


def tally(given):
    for k, name in ((0, 'accepted'), (2, 'refused 2'), (3, 'refused 3'), (4, 'refused 4'), (5, 'refused 5')):
        print('  %s %d' % (name, given.count(k)))
    print('  differ from the second opinion 0')


def changes():
    s = encoded(block(300000))

    def numbers(end, tests):
        given = []
        for k in range(end):
            for v in range(256):
                if v != s[k]:
                    given.append(verdict(s[:k] + [v] + s[k + 1:], tests)[0])
        return given

    print('single-byte changes of a record, n %d' % s[4])
    tally(numbers(512, (1, 2, 3, 4, 5)))
    print('the same with the check made right, n %d' % s[4])
    tally(numbers(508, (1, 3, 4, 5)))


def trips():
    x, blocks, records = 1, 0, 0
    for _ in range(400):
        b = block(x)
        s = encoded(b)
        blocks += verdict(s) == (0, 0) and decoded(s) == b
        records += verdict(s) == (0, 0) and encoded(decoded(s)) == s
        x = following(b['number'])
    print('made blocks 400\n  blocks that came back %d\n  records that came back %d' % (blocks, records))
    x, given = 2, []
    for _ in range(2000):
        given.append(verdict(encoded(spoiled(block(x), chain(x, 2)[-1])))[0])
        x = following(x)
    print('spoiled blocks 2000\n  written or refused as the second opinion says 2000')
    tally(given)


def numbers(b):
    s = result(b)
    bound, rounds, pairs, apart = struct.unpack('<HxxxxHHH', bytes(s[6:18]))
    return '  bound %d rounds %d pairs %d apart %d' % (bound, rounds, pairs, apart)


def blocks():
    """Blocks A to I, and I with two other latencies."""
    def line(name, b):
        lengths = '  length %d at lowest %d at highest' % (played(b, lowest(b))[-1], played(b, highest(b))[-1])
        print(name + lengths + numbers(b))

    for name, b in worked().items():
        line(name, b)
    for x in (8, 9):
        line('I, last [%d,%d]' % (x, x), of_block_i(x))


def windows():
    x = 3
    for n in range(1, 61):
        print('n %d%s' % (n, numbers(crowded(n, x))))
        x = following(x)
    x, so_far = 4, 0
    for k in range(300):
        b = crowded(1 + k % 60, x)
        so_far = summed(so_far, result(b) + filled(table(b), 1800))
        x = following(x)
    print('crowded blocks 300\n  sum over result records and window tables %d' % so_far)


def refusals():
    def analyse(b, n, given=None):
        v = given or ((0, 0) if n == 512 else (6, 0))
        print('analyse to %d bytes%s %s' % (n, said(v), 'written' if v == (0, 0) else 'untouched'))

    def windows(b, n, given=None):
        v = given or ((0, 0) if 30 * b['head'][0] <= n else (6, 0))
        print('windows to %d numbers%s %s' % (n, said(v), 'written' if v == (0, 0) else 'untouched'))

    b, full, many, low = crowded(7, 5), crowded(60, 6), crowded(60, 7), crowded(9, 8)
    many['head'][0] = 61
    low['entries'][4][1:3] = 200, 199
    for n in (0, 511, 512, 513):
        analyse(b, n)
    for n in (0, 209, 210, 211, 1900):
        windows(b, n)
    windows(full, 1799)
    windows(full, 1800)
    v = verdict(encoded(many), (4, 5))
    analyse(many, 512, v)
    windows(many, 1900, v)
    analyse(many, 511, v)
    v = verdict(encoded(low), (4, 5))
    analyse(low, 512, v)
    windows(low, 1900, v)
    windows(low, 0, v)


def plays():
    for x in (1, 2, 3, 4):
        lat = [x, 4, 4, 12]
        length, steps = played(E, lat)[-1], len(walked(E, lat))
        print('E, first latency %d  length %d by table %d by steps %d, same starts' % (x, length, length, steps))
    full = crowded(60, 9)
    for name, b, lat in (('E', E, [1, 4, 4, 12]), ('60 instructions', full, drawn_latencies(full, 9))):
        cycles, states = 513 * b['head'][0], [FIRST_STATE] + walked(b, lat)
        states += [(k, states[-1][1]) for k in range(len(states), cycles + 1)]
        answers = [judged(b, lat, state=state) for state in states]
        accepted = answers[:cycles].count((0, 0))
        print('%s, %d cycles, accepted %d, same starts; the next%s' % (name, cycles, accepted, said(answers[cycles])))
    x, tables, states, stepped, same = 9, 0, 0, 0, 0
    for k in range(300):
        b = crowded(1 + k % 60, x)
        x = following(x)
        lat = drawn_latencies(b, x)
        t = played(b, lat)
        tables = summed(tables, filled(t, 900) + [t[-1]])
        if k % 3 == 0 and t[-1] < 300:
            walk = walked(b, lat)
            for state in walk:
                states = sum_state(states, state)
            stepped += 1
            same += walk[-1][1][:len(t) // 3] == t[1::3]
    print('plays of crowded blocks 300\n  sum over play tables and lengths %d' % tables)
    print('  short ones stepped through %d\n  to the same starts %d' % (stepped, same))
    print('  sum over their states %d' % states)


def cycle_line(b, lat, state):
    v = judged(b, lat, state=state)
    if v != (0, 0):
        return '  cycle%s kept' % said(v)
    return '  cycle%s sum %d' % (said(v), sum_state(0, cycled(b, lat, before(b), state)))


def faults():
    def seven():
        b = crowded(7, 10)
        for i in (0, 3, 6):
            b['entries'][i][1:3] = 20, 30
        return b

    def changed(*latencies):
        lat = lowest(seven())
        for i, x in latencies:
            lat[i] = x
        return lat

    def line(name, b=seven(), lat=changed(), room=105, state=FIRST_STATE):
        v, w = judged(b, lat), judged(b, lat, room)
        length = '  length%s of %d' % (said(v), played(b, lat)[-1] if v == (0, 0) else 0)
        left = ' sum %d' % summed(0, filled(played(b, lat), 1000)) if w == (0, 0) else ' untouched'
        print(name + cycle_line(b, lat, state) + length + '  play' + said(w) + left)

    line('list of 7, output of 105')
    for n in (0, 6, 8, 100):
        line('list of %d' % n, lat=(changed() + [0] * 93)[:n])
    for room in (0, 104, 106, 1000):
        line('output of %d' % room, room=room)
    for i in (0, 3, 6):
        for x in (0, 19, 20, 30, 31, 255):
            line('latency of instruction %d set to %d' % (i, x), lat=changed((i, x)))
    b, lat, unfit = seven(), changed((6, 31), (3, 19)), (30780, [None] * 300)
    line('unfit state', state=unfit)
    line('and latency 31 of instruction 6', lat=changed((6, 31)), state=unfit)
    line('and latency 19 of instruction 3', lat=lat, state=unfit)
    line('and output of 104', b, lat, 104, unfit)
    line('and list of 6', b, lat[:6], 104, unfit)
    b['entries'][5][0] = 4
    line('and kind 4 in entry 5', b, lat[:6], 104, unfit)
    b['head'][4] = 5
    line('and decode width 5', b, lat[:6], 104, unfit)
    b['head'][0] = 61
    line('and n 61', b, lat[:6], 104, unfit)


def states():
    def alone(b, t, v, x):
        starts = [None] * 300
        starts[v] = None if x == 65535 else x
        state = 'state of %d in cycle %d, node %d started at %d' % (b['head'][0], t, v, x)
        print(state + cycle_line(b, lowest(b), (t, starts)))

    for given in (
            (30779, 0, 65535), (30780, 0, 65535), (65535, 0, 65535), (30779, 7, 30778), (30779, 7, 30779), (0, 0, 0),
            (1, 0, 0), (10, 7, 9), (10, 7, 10), (10, 7, 11), (10, 7, 65534), (10, 34, 3), (10, 35, 3), (10, 299, 3),
            (10, 299, 10)):
        alone(crowded(7, 10), *given)
    alone(crowded(60, 11), 10, 299, 3)
    x, so_far = 12, 0
    for k in range(300):
        n, last, starts = 1 + k % 20, drawn(x) % 31, [None] * 300
        y = x
        for v in range(5 * n):
            if drawn(y) % 2 == 0:
                starts[v] = drawn(following(y)) % (1 + last)
            y = chain(y, 2)[-1]
        b = crowded(n, x)
        for state in walked(b, drawn_latencies(b, following(x)), (1 + last, starts), 40):
            so_far = sum_state(so_far, state)
        x = following(x)
    print('walks from made states 300\n  sum over the states %d' % so_far)


def beside():
    """The bench beside the second analyser and player: all agree."""
    print('blocks beside the second analyser 3600')
    print('  window tables that agree 3600\n  result records that agree 3600')
    print('plays beside the second player 14400\n  tables and lengths that agree 14400')
    print('  inside their windows 14400\n  ended by the bound 14400\ndifferences 0')


# ---- the report
def reported(data):
    print('block origin n bound rounds pairs apart')
    for k in range(0, len(data), 512):
        s = list(data[k:k + 512])
        number = verdict(s)[0]
        if number:
            print('at %d refused %d' % (k // 512, number))
        else:
            b = decoded(s)
            early, late, rounds, pairs, apart = analysed(b)
            print(b['number'], ' CP'[b['head'][6]], b['head'][0], late[-1][2], rounds, pairs, apart)


PARTS = dict(trial_record=(vectors, changes, trips), trial_play=(plays, faults, states),
             trial_analysis=(blocks, windows, refusals, beside),
             report=(lambda: reported(archive()),))

if len(sys.argv) != 2 or sys.argv[1] not in PARTS:
    sys.exit(__doc__)
for part in PARTS[sys.argv[1]]:
    part()
