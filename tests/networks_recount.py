"""The rows of tools/networks, counted once more from the words of include/hcube.h: labels as the largest set, hops block by
block.

networks_recount.py N...      the rows of these n, of every table of them
networks_recount.py climbed   the rows on standard input of what was climbed for, with their networks counted anew
"""
import sys

SAFE, ORDINARY, STRONG, FAULTY = range(4)
UP, DOWN = 0, 1
MOST = 5
HALTED, MORE = 'halted', 'more'


def labels_of(n, faulty):
    """Of all sets of working nodes whose nodes have at most one faulty neighbour and two outside, the safe ones are the largest."""
    near = [{k ^ 1 << i for i in range(n)} for k in range(1 << n)]
    safe = set(range(1 << n)) - faulty
    while True:
        leave = {k for k in safe if len(faulty & near[k]) > 1 or len(near[k] - safe) > 2}
        if not leave:
            return [FAULTY if k in faulty else SAFE if k in safe else ORDINARY if safe & near[k] else STRONG for k in range(1 << n)]
        safe -= leave


def forward(labels, c, far, network, going, dimensions):
    """The hop of one call of FORWARD, as network and dimension; or None."""
    on = [i for i in dimensions if c >> i & 1 == going]
    turning = [i for i in dimensions if i not in on]
    behind = network + (going == DOWN)
    strong = labels[c] == STRONG or not far
    blocks = [(on, [SAFE], network, True), (turning, [SAFE], behind, True),
              (on, [SAFE, ORDINARY], network, True), (turning, [SAFE, ORDINARY], behind, going == UP or network == 0 or not far),
              (on if strong else [], [SAFE, ORDINARY, STRONG], network, True),
              (turning if strong else [], [SAFE, ORDINARY, STRONG], behind, going == UP or not far)]
    for row, allowed, then, hops in blocks:
        found = [i for i in row if labels[c ^ 1 << i] in allowed]
        if found:
            return (then, min(found)) if hops else None
    return None


def walk(n, labels, s, d):
    """How many networks it needs, or what else becomes of it."""
    network, going = 0, UP
    while s != d:
        apart = [i for i in range(n) if (s ^ d) >> i & 1]
        same = [i for i in range(n) if i not in apart]
        hop = (forward(labels, s, len(apart) > 2, network, going, apart)
               or forward(labels, s, len(apart) > 2, network, going, same))
        if hop is None:
            return HALTED
        network, going = hop[0], s >> hop[1] & 1
        if network == MOST:
            return MORE
        s ^= 1 << hop[1]
    return network + 1


def rows(n):
    """Of the tables with a safe node, and of those without."""
    counts = {True: {}, False: {}}
    for table in range(1 << (1 << n)):
        faulty = {k for k in range(1 << n) if table >> k & 1}
        labels = labels_of(n, faulty)
        count = counts[SAFE in labels]
        count['tables'] = count.get('tables', 0) + 1
        for s in set(range(1 << n)) - faulty:
            for d in set(range(1 << n)) - faulty - {s}:
                became = walk(n, labels, s, d)
                count[became] = count.get(became, 0) + 1
    return [[count.get(name, 0) for name in ('tables', 1, 2, 3, 4, 5, MORE, HALTED)] for count in (counts[True], counts[False])]


def print_rows(words):
    both = {n: rows(int(n)) for n in words}
    for part in 0, 1:
        for n in words:
            print(f'| {n} | ' + ' | '.join(map(str, both[n][part])) + ' |')


def print_climbed(lines):
    for line in lines:
        n, _, s, d, faulty = (part.strip() for part in line.strip().strip('|').split('|'))
        labels = labels_of(int(n), set(map(int, faulty.split())))
        needed = walk(int(n), labels, int(s), int(d)) if SAFE in labels else 'no safe node'
        print(f'| {n} | {needed} | {s} | {d} | {faulty} |')


if sys.argv[1:] == ['climbed']:
    print_climbed(sys.stdin)
else:
    print_rows(sys.argv[1:])
