#!/usr/bin/env python3
"""The rules of one update, read anew and apart from the sources: writes what crates/replay_update must write."""
M = (1 << 64) - 1
ALWAYS = 1 << 62
SEED, DEAD = (1, 2, 3, 4), (0, 0, 0, 0)
INF = float('inf')
TWO = ([1.0, 2.0], [2700000000000000000, 1500000000000000000])


def rotl(x, k):
    return ((x << k) | (x >> (64 - k))) & M


def step(s):
    s0, s1, s2, s3 = s
    out = rotl(s1 * 5 & M, 7) * 9 & M
    t = s1 << 17 & M
    s2 ^= s0
    s3 ^= s1
    s1 ^= s2
    s0 ^= s3
    return out, (s0, s1, s2 ^ t, rotl(s3, 45))


def refusal(shape, spins, couplings, weights, thresholds, state, room, entry):
    n = 1
    for e in shape:
        n *= e
    if not 1 <= len(shape) <= 4 or any(not 1 <= e <= 4096 for e in shape) or n > 1 << 24:
        return 1, 0
    if room != n or len(spins) != n or len(couplings) != n * len(shape):
        return 2, 0
    if state == DEAD:
        return 3, 0
    rising = all(0 < w < INF for w in weights) and all(a < b for a, b in zip(weights, weights[1:]))
    if len(weights) != len(thresholds) or len(weights) > 64 or not rising or any(t > ALWAYS for t in thresholds):
        return 4, 0
    for i, s in enumerate(spins):
        if s not in (1, -1):
            return 5, i
    for b, j in enumerate(couplings):
        if abs(j) == INF or j != j or (j != 0 and abs(j) not in weights):
            return 6, b
    if entry > 1 << 63:
        return 7, 0
    return None


def update(shape, spins, couplings, weights, thresholds, state, action, entry):
    m, n = len(shape), len(spins)
    stride = [1] * m
    for d in range(m - 2, -1, -1):
        stride[d] = stride[d + 1] * shape[d + 1]
    of, rank = list(range(n)), [0] * n
    where, flags, torn, active = [[0, 0] for _ in range(n)], [False, False], False, 0
    for b in range(n * m):
        x, d = divmod(b, m)
        c = x // stride[d] % shape[d]
        y = x + ((c + 1) % shape[d] - c) * stride[d]
        pull = spins[x] * spins[y] * couplings[b]
        if not pull > 0:
            continue
        out, state = step(state)
        if not out // 4 < thresholds[weights.index(pull)]:
            continue
        active += 1
        way = [where[x][a] + (a == d) - where[y][a] for a in (0, 1)]
        p, q = of[x], of[y]
        if p == q:
            if m == 2:
                flags = [flags[a] or way[a] != 0 for a in (0, 1)]
                torn = torn or any(way[a] % shape[a] for a in (0, 1))
            continue
        for i in range(n):
            if of[i] == q:
                where[i] = [where[i][a] + way[a] for a in (0, 1)]
        if rank[p] < rank[q]:
            root = q
        else:
            root = p
            rank[p] += rank[p] == rank[q]
        of = [root if r in (p, q) else r for r in of]
    counts = [of.count(i) for i in range(n)]
    sizes = sorted((c for c in counts if c), reverse=True)
    histogram = [entry + (sizes.count(s) if s else 0) for s in range(n + 1)]
    decisions = rank
    if action == 'update':
        decisions = [2] * n
        for i in range(n):
            if decisions[of[i]] == 2:
                out, state = step(state)
                decisions[of[i]] = 1 - (out >> 63)
        spins = [-s if decisions[of[i]] == 1 else s for i, s in enumerate(spins)]
    top = (sizes + [0] * 4)[:4]
    large = sum(c >= -(-n // 20) for c in sizes)
    said = [
        'generator ' + ' '.join(map(str, state)),
        f'components {len(sizes)} active {active}',
        'top ' + ' '.join(map(str, top)) + f' large {large}',
        f'winding {str(flags[0]).lower()} {str(flags[1]).lower()} torn {str(torn).lower()}',
    ]
    return said, spins, of, counts, decisions, histogram, [0] * n, [0] * n, [0] * 2 * n, [0] * 2 * n


def call(name, shape, spins, couplings, classes, action='update', state=SEED, room=None, entry=5):
    room = len(spins) if room is None else room
    print(name)
    no = refusal(shape, spins, couplings, classes[0], classes[1], state, room, entry)
    if no:
        print(f'refused {no[0]} {no[1]}')
        rows = [spins, [7] * room, [7] * room, [7] * room, [entry] * (room + 1), [7] * room, [7] * room, [7] * 2 * room, [7] * 2 * room]
    else:
        said, *rows = update(shape, spins, couplings, classes[0], classes[1], state, action, entry)
        print('\n'.join(said))
    print(''.join({1: '+', -1: '-'}.get(s, str(s)) for s in rows[0]))
    for row in rows[1:]:
        print(' '.join(map(str, row)))


def patterned(name, shape, action):
    n = 1
    for e in shape:
        n *= e
    spins = [-1 if (5 * i + 1) % 3 == 0 else 1 for i in range(n)]
    couplings = [(1.0, -1.0, 2.0, 0.0, -2.0, 1.0, 1.0)[b % 7] for b in range(n * len(shape))]
    call(name, shape, spins, couplings, TWO, action)


call('W3', [2], [1, 1], [1.0, 1.0], ([1.0], [2880]))
call('W4', [2], [1, 1], [1.0, 1.0], ([1.0], [2881]))
call('W5', [1, 1], [1], [1.0, 1.0], ([1.0], [ALWAYS]), 'observe')
call('W6', [2, 2], [1] * 4, [1.0] + [0.0] * 7, ([1.0], [ALWAYS]), 'observe')
call('W7', [2, 2], [1] * 4, [1.0, 0.0, 0.0, 0.0, 1.0, 0.0, 0.0, 0.0], ([1.0], [ALWAYS]), 'observe')
call('W9', [1], [1], [-1.0], ([1.0], [ALWAYS]))
call('W11', [2], [0, 1], [INF, 1.0], ([1.0], [ALWAYS]))
patterned('3x5', [3, 5], 'update')
patterned('3x5 observed', [3, 5], 'observe')
patterned('5x3', [5, 3], 'update')
patterned('1x7', [1, 7], 'update')
patterned('2x2x3', [2, 2, 3], 'update')
patterned('1x1x1x1', [1, 1, 1, 1], 'update')
ONE = ([1.0], [ALWAYS])
call('no axes', [], [1, 1], [1.0, 1.0], ONE)
call('an extent of 0', [0], [1, 1], [1.0, 1.0], ONE)
call('a length', [2], [1, 1], [1.0, 1.0], ONE, room=3)
call('a dead generator', [2], [1, 1], [1.0, 1.0], ONE, state=DEAD)
call('a weight repeated', [2], [1, 1], [1.0, 1.0], ([1.0, 1.0], [1, 2]))
call('a threshold above 2^62', [2], [1, 1], [1.0, 1.0], ([1.0], [ALWAYS + 1]))
call('a spin of 3', [2], [1, 3], [1.0, 1.0], ONE)
call('a coupling in no class', [2], [1, 1], [1.0, 3.0], ONE)
call('an entry above 2^63', [2], [1, 1], [1.0, 1.0], ONE, entry=(1 << 63) + 1)
call('everything wrong', [2], [1, 3], [INF, 3.0], ([1.0], [ALWAYS + 1]), state=DEAD, entry=(1 << 63) + 1)
