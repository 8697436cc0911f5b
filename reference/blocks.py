"""Blocks made from a seed, lists of latencies, and the blocks worked by hand."""


# ---- blocks from a seed, as the trial programs make them
def following(x):
    return (x % 2147483648 * 1103515245 + 12345) % 2147483648


def chain(x, n):
    xs = [x]
    for _ in range(n):
        xs.append(following(xs[-1]))
    return xs


def drawn(x):
    return x // 2048


def register(x):
    return drawn(x) % 66 if drawn(x) % 66 < 64 else 255


def entry(x):
    xs = chain(x, 5)
    latencies = sorted(1 + drawn(y) % 255 for y in xs[1:3])
    return [drawn(x) % 4] + latencies + [register(y) for y in xs[3:]]


def block(x):
    xs = chain(x, 8)
    n = 1 + drawn(x) % 60
    y, entries = xs[8], []
    for i in range(60):
        entries.append(entry(y) if i < n else [0] * 6)
        y = chain(y, 6)[-1]
    head = [n] + [1 + drawn(z) % m for z, m in zip(xs[1:7], (16, 32, 4, 4, 4, 2))]
    return dict(head=head, number=xs[7] % 65536 * 65536 + xs[8] % 65536, entries=entries)


def crowded(n, x):
    b = block(x)
    y, z = chain(b['number'], 1)
    xs = chain(y, 2)
    kind, latency, top = drawn(xs[0]) % 4, (2, 5, 254)[drawn(xs[1]) % 3], 1 + drawn(xs[2]) % 31
    entries = []
    for i in range(60):
        xs = chain(z, 6)
        latencies = sorted(1 + drawn(u) % (1 + latency) for u in xs[1:3])
        registers = [drawn(u) % (1 + top) or 255 for u in xs[3:6]]
        entries.append([drawn(xs[0]) % (1 + kind)] + latencies + registers if i < n else [0] * 6)
        z = xs[6]
    b['head'][0] = n
    b['entries'] = entries
    return b


def spoiled(b, x):
    x1, x2 = chain(x, 2)[1:]
    field, v = drawn(x) % 14, drawn(x1) % 256
    if field < 7:
        b['head'][field] = v
    else:
        b['entries'][drawn(x2) % 60][field % 6] = v
    return b


def lowest(b):
    return [e[1] for e in b['entries'][:b['head'][0]]]


def highest(b):
    return [e[2] for e in b['entries'][:b['head'][0]]]


def drawn_latencies(b, x):
    lat = []
    for lo, hi in zip(lowest(b), highest(b)):
        lat.append(lo + drawn(x) % (1 + hi - lo))
        x = following(x)
    return lat


# ---- blocks by hand
def of_entries(*given, w=8, width=1):
    """Kind, lo, hi, register written, register read of each entry."""
    entries = [list(e) + [255] for e in given] + [[0] * 6] * (60 - len(given))
    return dict(head=[len(given), 4, w, width, width, width, 1], number=1, entries=entries)


def worked():
    """Blocks A to I by their letters."""
    one, four, none = (0, 1, 1, 255, 255), (1, 1, 4, 255, 255), 255
    return dict(
        A=of_entries(one), B=of_entries(four), C=of_entries(four, four),
        D=of_entries((1, 1, 4, 1, none), (1, 1, 4, none, 1)),
        E=of_entries((0, 1, 4, 1, none), (1, 4, 4, none, 1), (1, 4, 4, 2, none), (2, 12, 12, none, 2)),
        F=of_entries((1, 1, 1, none, none), one, one, (1, 1, 3, none, none)),
        G=of_entries(one, one, width=2), H=of_entries(one, one, w=1), I=of_block_i(2))


def of_block_i(last):
    """Block I with its last latency."""
    return of_entries((0, 10, 10, 1, 255), (1, 1, 1, 255, 1), (1, last, last, 255, 255))


E, F = worked()['E'], worked()['F']
