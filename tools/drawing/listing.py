"""listing.py: what a picture shows, from the lines of a listing.

The first line has the counts, the lines after it are those of the pairs, and the last 2^n lines answer
the pairs k k for each node k, which tell the faulty nodes: `tools/draw` adds these pairs. The listing
says how many nodes have a label, not which. So the labels are computed here, by the rule of
docs/RULES.md, and nothing is drawn unless all counts are those of the first line. Behind the nodes
of a walk by virtual networks stands `by` and the network of each hop (tools/draw_networks.c).
"""
from shapes import FAULTY, ORDINARY, SAFE, STRONG

MOST_DIMENSIONS = 6
MOST_PAIRS = 3
HEAD = ['cube', 'faulty', 'safe', 'ordinary', 'strong', 'rounds']


class Refused(Exception):
    """One line that says why nothing is drawn."""
    status = 1


class TooLarge(Refused):
    """More than a picture shows."""
    status = 2


class Walk:
    """A pair: source, destination, ending, the nodes visited in order, the refusal's number or None, the hops' networks or None."""

    def __init__(self, source, destination, ending, visited, refusal, networks=None):
        self.source, self.destination, self.ending = source, destination, ending
        self.visited, self.refusal, self.networks = visited, refusal, networks

    def hops(self):
        return list(zip(self.visited, self.visited[1:]))

    def distance(self):
        return bin(self.source ^ self.destination).count('1')


class Cube:
    """Dimension, labels, rounds and walks, and the lines that say so."""

    def __init__(self, n, labels, rounds, walks, lines):
        self.n, self.labels, self.rounds, self.walks, self.lines = n, labels, rounds, walks, lines

    def count(self, label):
        return self.labels.count(label)


def counts_of(line):
    parts = line.split()
    if parts[0::2] != HEAD or len(parts) != 12 or not all(part.isdecimal() for part in parts[1::2]):
        raise Refused('not the first line of a listing: ' + line)
    return [int(part) for part in parts[1::2]]


def working(lines):
    """Which nodes work, by the answers to the pairs k k."""
    for k, line in enumerate(lines):
        if line not in (f'{k} {k} delivered 0 {k}', f'{k} {k} refused 6'):
            raise Refused(f'not an answer to the pair {k} {k}: {line}')
    return [' delivered ' in line for line in lines]


def labels_of(n, works):
    """The labels by rule 3, and how many rounds they take, the quiet one included."""
    near = [[k ^ 1 << i for i in range(n)] for k in range(1 << n)]
    unsafe, new, rounds = set(), {None}, 0
    while new:
        new = {k for k in range(1 << n) if works[k] and k not in unsafe
               and (sum(not works[m] for m in near[k]) >= 2 or sum(not works[m] or m in unsafe for m in near[k]) >= 3)}
        unsafe |= new
        rounds += 1

    def safe(k):
        return works[k] and k not in unsafe

    def label(k):
        if not works[k]:
            return FAULTY
        if safe(k):
            return SAFE
        return ORDINARY if any(safe(m) for m in near[k]) else STRONG
    return [label(k) for k in range(1 << n)], rounds


def in_its_networks(walk):
    """Whether a hop up behind one down takes the next network, and no other hop does; and whether it ends as it says."""
    network, down, wanted = 0, False, []
    for a, b in walk.hops():
        network += down and a < b
        down = a > b
        wanted.append(network)
    return walk.networks == wanted and (walk.visited[-1] == walk.destination) == (walk.ending == 'delivered')


def is_walk(n, works, walk):
    """Whether it goes from the source from neighbour to neighbour, over working nodes, and ends as it says; without networks, over none twice."""
    visited, destination = walk.visited, walk.destination
    if not visited or visited[0] != walk.source or not all(k < 1 << n and works[k] for k in visited):
        return False
    steps = [1 << i for i in range(n)]
    if not all(a ^ b in steps for a, b in walk.hops()):
        return False
    if walk.networks is not None:
        return in_its_networks(walk)
    if len(set(visited)) < len(visited):
        return False
    nearer = [visited[-1] ^ step for step in steps if (visited[-1] ^ destination) & step]
    if walk.ending == 'delivered':
        return visited[-1] == destination
    return bool(nearer) and not any(works[k] for k in nearer)


def walk_of(n, works, line):
    """The walk that a pair's line tells."""
    told, by, behind = line.partition(' by')
    parts, networks = told.split(), behind.split()
    if len(parts) < 4 or not all(part.isdecimal() for part in parts[:2] + parts[3:] + networks):
        raise Refused('not the line of a pair: ' + line)
    source, destination, ending, first, *visited = (int(part) if part.isdecimal() else part for part in parts)
    if ending == 'refused' and not visited:
        return Walk(source, destination, ending, [], first)
    walk = Walk(source, destination, ending, visited, None, [int(network) for network in networks] if by else None)
    if ending not in ('delivered', 'halted') or first != len(walk.hops()) or not is_walk(n, works, walk):
        raise Refused('not a walk of this cube: ' + line)
    return walk


def read(lines):
    """The cube of these lines."""
    if not lines:
        raise Refused('nothing was listed')
    counts = counts_of(lines[0])
    n = counts[0]
    if not 1 <= n <= MOST_DIMENSIONS:
        raise TooLarge(f'the cube has {n} dimensions, and a picture is of {MOST_DIMENSIONS} at most')
    pairs, nodes = lines[1:-(1 << n)], lines[1:][-(1 << n):]
    if len(nodes) != 1 << n:
        raise Refused(f'the listing has {len(nodes)} lines of pairs, where {1 << n} are of the nodes alone')
    if len(pairs) > MOST_PAIRS:
        raise TooLarge(f'{len(pairs)} pairs are given, and a picture shows {MOST_PAIRS} at most')
    works = working(nodes)
    labels, rounds = labels_of(n, works)
    if counts != [n] + [labels.count(label) for label in (FAULTY, SAFE, ORDINARY, STRONG)] + [rounds]:
        raise Refused('the rule counts otherwise than the listing: ' + lines[0])
    return Cube(n, labels, rounds, [walk_of(n, works, line) for line in pairs], lines[:1 + len(pairs)])
