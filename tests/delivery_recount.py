"""delivery_recount.py SEED TABLES: the rows of n = 4 of tools/delivery, counted once more from the words of docs/RULES.md
and include/hcube.h: labels as the largest set, walks scan by scan, paths by growing sets. Only the random numbers and
the order in which nodes become faulty are those of tools/delivery.c."""
import sys

N, NODES = 4, 16
NEAR = [[k ^ 1 << i for i in range(N)] for k in range(NODES)]
MASK = (1 << 64) - 1
SAFE, ORDINARY, STRONG, FAULTY = range(4)


class Random:
    """splitmix64"""

    def __init__(self, state):
        self.state = state

    def below(self, bound):
        self.state = self.state + 0x9e3779b97f4a7c15 & MASK
        z = self.state
        z = (z ^ z >> 30) * 0xbf58476d1ce4e5b9 & MASK
        z = (z ^ z >> 27) * 0x94d049bb133111eb & MASK
        return ((z ^ z >> 31) >> 32) * bound >> 32


def labels_of(faulty):
    """Of all sets of working nodes whose nodes have at most one faulty neighbour and two outside, the safe ones are the largest."""
    safe = set(range(NODES)) - faulty
    while True:
        leave = {k for k in safe if len(faulty.intersection(NEAR[k])) > 1 or len(set(NEAR[k]) - safe) > 2}
        if not leave:
            return [FAULTY if k in faulty else SAFE if k in safe else ORDINARY if safe.intersection(NEAR[k]) else STRONG for k in range(NODES)]
        safe -= leave


def hop(labels, c, d):
    """The node after c on the way to d, or None."""
    forward = [m for m in NEAR[c] if bin(m ^ d).count('1') < bin(c ^ d).count('1')]
    spare = [m for m in NEAR[c] if m not in forward]
    far = labels[c] != STRONG and bin(c ^ d).count('1') > 2
    scans = [(forward, [SAFE]), (forward, [SAFE, ORDINARY]), ([] if far else forward, [SAFE, ORDINARY, STRONG]),
             (spare, [SAFE]), (spare, [SAFE, ORDINARY])]
    return next((m for row, allowed in scans for m in row if labels[m] in allowed), None)


def walk(labels, s, d):
    """How many hops to d; or None where it halts."""
    hops = 0
    while s is not None and s != d:
        s, hops = hop(labels, s, d), hops + 1
    return None if s is None else hops


def shortest(faulty, s):
    """By node, how many hops it is away over working nodes."""
    found, ring, away = {}, {s}, 0
    while ring:
        found.update(dict.fromkeys(ring, away))
        away += 1
        ring = {m for k in ring for m in NEAR[k]} - faulty - set(found)
    return found


def count(seed, count_faulty, tables):
    """Tables without a safe node; connected pairs, those delivered, and by a shortest path."""
    random, order = Random((seed << 32) + (N << 16) + count_faulty), list(range(NODES))
    none_safe = pairs = delivered = short = 0
    for _ in range(tables):
        for last in range(NODES - 1, NODES - 1 - count_faulty, -1):
            at = random.below(last + 1)
            order[at], order[last] = order[last], order[at]
        faulty = set(order[NODES - count_faulty:])
        labels = labels_of(faulty)
        none_safe += SAFE not in labels
        for s in set(range(NODES)) - faulty:
            for d, hops in shortest(faulty, s).items():
                if d != s:
                    taken = walk(labels, s, d)
                    pairs += 1
                    delivered += taken is not None
                    short += taken == hops
    return none_safe, pairs, delivered, short


def share(part, whole, places):
    if part in (0, whole):
        return '100' if part else '0'
    rounded = (2 * 100 * 10 ** places * part + whole) // (2 * whole)
    return f'{rounded // 10 ** places}.{rounded % 10 ** places:0{places}}'


def main(seed, tables):
    cells = [count(seed, faulty, tables) for faulty in (3, 4, 8)]
    for row in ([share(none_safe, tables, 1) for none_safe, *_ in cells], [share(done, pairs, 2) for _, pairs, done, _ in cells],
                [share(short, pairs, 2) for _, pairs, _, short in cells]):
        print(f'| 4 | {tables} | ' + ' | '.join(row) + ' | – | – | – | – | – |')


main(int(sys.argv[1]), int(sys.argv[2]))
