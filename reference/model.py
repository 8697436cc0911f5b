"""The rules as a model that shares no code with the bench: records, analysis, play."""
import struct

RANGES = [(x, x) for x in b'BLK1']
RANGES += [(1, 60), (1, 16), (1, 32), (1, 4), (1, 4), (1, 4), (1, 2), (0, 0)]
RANGES += [(0, 255)] * 4 + [(0, 0)] * 12


# ---- records
def check(s):
    a = b = 0
    for k in range(254):
        a = (a + s[2 * k] + 256 * s[2 * k + 1]) % 65535
        b = (b + a) % 65535
    return b * 65536 + a


def sealed(s):
    return s[:508] + list(struct.pack('<I', check(s)))


def encoded(b):
    s = list(b'BLK1') + b['head'] + [0] + list(struct.pack('<I', b['number'])) + [0] * 12
    for e in b['entries']:
        s += e + [0, 0]
    return sealed(s + [0] * 4)


def decoded(s):
    number = struct.unpack('<I', bytes(s[12:16]))[0]
    return dict(head=s[4:11], number=number, entries=[s[28 + 8 * i:34 + 8 * i] for i in range(60)])


def kept(n, i, e):
    if i >= n:
        return not any(e)
    registers = all(r < 64 or r == 255 for r in e[3:6])
    return e[0] < 4 and 1 <= e[1] <= e[2] and registers and e[6:] == [0, 0]


def verdict(s, tests=(1, 2, 3, 4, 5)):
    if 1 in tests and len(s) != 512:
        return 1, 0
    if 2 in tests and check(s) != struct.unpack('<I', bytes(s[508:]))[0]:
        return 2, 0
    if 3 in tests and s[:4] != list(b'BLK1'):
        return 3, 0
    for k in range(4, 28):
        if not RANGES[k][0] <= s[k] <= RANGES[k][1]:
            return 4, k
    for i in range(60):
        if not kept(s[4], i, s[28 + 8 * i:36 + 8 * i]):
            return 5, i
    return 0, 0


# ---- the analysis: nodes are numbered by instruction, then stage
IF, ID, EX, WB, CM = range(5)


def edges(b):
    """The finish edges and the order edges, from each node up."""
    n, q, w, f, d, c = b['head'][:6]
    finish, order = [], []

    def edge(edges, g, i, h, j):
        if j < n:
            edges.append((5 * i + g, 5 * j + h))

    for i in range(n):
        for g in (IF, ID, EX, WB):
            edge(finish, g, i, g + 1, i)
        edge(finish, ID, i, IF, i + q)
        edge(finish, CM, i, ID, i + w)
        for g, width in ((IF, f), (ID, d), (CM, c)):
            edge(finish, g, i, g, i + width)
            edge(order, g, i, g, i + 1)
        for r in b['entries'][i][4:6]:
            writers = [k for k in range(i) if r != 255 and b['entries'][k][3] == r]
            if writers:
                edge(finish, WB, writers[-1], EX, i)
    return finish, order


def reached(n, into):
    """For each node those that a path leads to: edges lead up, so the last nodes come first."""
    after = [{w for u, w in into if u == v} for v in range(5 * n)]
    for v in reversed(range(5 * n)):
        for w in list(after[v]):
            after[v] |= after[w]
    return after


def contending(b, into):
    n, kinds, after = b['head'][0], [e[0] for e in b['entries']], reached(b['head'][0], into)
    return {(i, j) for j in range(n) for i in range(j)
            if kinds[i] == kinds[j] and 5 * j + EX not in after[5 * i + EX] and 5 * i + EX not in after[5 * j + EX]}


def timed(n, finish, order, begin, latency):
    """Ready, start and finish of each node: begin gives its start from its ready time and the times before it."""
    times = []
    for v in range(5 * n):
        ready = max([0] + [times[u][2] for u, w in finish if w == v] + [times[u][1] for u, w in order if w == v])
        start = begin(v, ready, times)
        times.append((ready, start, start + latency(v)))
    return times


def analysed(b):
    """The earliest and the latest times, and rounds, contending pairs, pairs apart."""
    n, entries = b['head'][0], b['entries']
    finish, order = edges(b)
    pairs = contending(b, finish + order)
    lowest = lambda v: entries[v // 5][1] if v % 5 == EX else 1
    highest = lambda v: entries[v // 5][2] if v % 5 == EX else 1
    early = timed(n, finish, order, lambda v, ready, times: ready, lowest)
    apart, rounds = set(), 0

    def latest(v, ready, times):
        if v % 5 != EX:
            return ready
        x = v // 5
        earlier = [i for i, j in pairs - apart if j == x]
        later = [j for i, j in pairs - apart if i == x]
        most = ready + max(entries[j][2] for j in later) - 1 if later else ready
        if not earlier:
            return most
        return min(most + sum(entries[i][2] for i in earlier), max(most, max(times[5 * i + EX][2] for i in earlier)))

    while True:
        rounds += 1
        late = timed(n, finish, order, latest, highest)
        found = {(i, j) for i, j in pairs - apart
                 if late[5 * i + EX][2] <= early[5 * j + EX][0] or late[5 * j + EX][2] <= early[5 * i + EX][0]}
        if not found:
            return early, late, rounds, len(pairs), len(apart)
        apart |= found


def result(b):
    early, late, rounds, pairs, apart = analysed(b)
    n = b['head'][0]
    s = list(b'RES1') + [n, b['head'][6]]
    s += list(struct.pack('<HIHHH', late[-1][2], b['number'], rounds, pairs, apart)) + [0] * 10
    for i in range(n):
        v, w = 5 * i + EX, 5 * i + CM
        s += list(struct.pack('<HHHH', early[v][1], late[v][1], late[v][2], late[w][2]))
    return sealed(s + [0] * (512 - len(s)))


def table(b):
    early, late = analysed(b)[:2]
    return [x for e, l in zip(early, late) for x in e + l]


# ---- the play: a state is a cycle number and the starts of 300 nodes, None where one has not started
def before(b):
    """For each node those that its finish edges come from, and those that its order edges come from."""
    return [[[u for u, w in into if w == v] for v in range(5 * b['head'][0])] for into in edges(b)]


def latency_of(lat, v):
    return lat[v // 5] if v % 5 == EX else 1


def cycled(b, lat, into, state):
    """The next state."""
    t, starts = state[0], list(state[1])
    n, kinds, (finish, order) = b['head'][0], [e[0] for e in b['entries']], into

    def started(u):
        return starts[u] is not None

    def finished(u):
        return started(u) and starts[u] + latency_of(lat, u) <= t

    def runs(u):
        return started(u) and starts[u] <= t < starts[u] + latency_of(lat, u)

    def free(v):
        return not any(kinds[i] == kinds[v // 5] and runs(5 * i + EX) for i in range(n))

    for v in range(5 * n):
        if not started(v) and all(finished(u) for u in finish[v]) and all(started(u) for u in order[v]):
            if v % 5 != EX or free(v):
                starts[v] = t
    return t + 1, starts


FIRST_STATE = (0, [None] * 300)


def walked(b, lat, state=FIRST_STATE, most=None):
    """The states that cycles lead to, until CM of the last instruction has started, or at most so many."""
    into, states, last = before(b), [], 5 * b['head'][0] - 1
    while not states or states[-1][1][last] is None and len(states) != most:
        state = cycled(b, lat, into, state)
        states.append(state)
    return states


def played(b, lat):
    """The play table: cycles from nothing until all have started."""
    nodes, into, state = 5 * b['head'][0], before(b), FIRST_STATE
    while None in state[1][:nodes]:
        state = cycled(b, lat, into, state)
    starts, table = state[1], []
    for v in range(nodes):
        finishes = [starts[u] + latency_of(lat, u) for u in into[0][v]]
        ready = max([0] + finishes + [starts[u] for u in into[1][v]])
        table += [ready, starts[v], starts[v] + latency_of(lat, v)]
    return table


def judged(b, lat, room=None, state=None):
    """The verdict on a play, its length or a cycle: test 6 where there is an output, test 9 where there is a state."""
    n, v = b['head'][0], verdict(encoded(b), (4, 5))
    if v != (0, 0):
        return v
    if room is not None and room < 15 * n:
        return 6, 0
    if len(lat) != n:
        return 7, 0
    for i in range(n):
        if not b['entries'][i][1] <= lat[i] <= b['entries'][i][2]:
            return 8, i
    if state is not None:
        t, starts = state
        if t > 30779 or any(x is not None and (x >= t or v >= 5 * n) for v, x in enumerate(starts)):
            return 9, 0
    return 0, 0
