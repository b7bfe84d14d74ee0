"""walks.py: the walks of a picture: an arrow for each hop with the hop's number on it, and its network if it has one, and tags at the ends.

Where hops share an edge they run side by side. Of several walks each has a letter and a colour.
"""
from math import sqrt

from shapes import GAP, TILE_SIDE, MARGIN, radius, reach

INKS = 'abc'
UP, DOWN = '\u2191\u2193'
LANE = 9
TAG_HEIGHT = 18
SIDES = [(0, 1, 0), (0, -1, 0), (-1, 0, 0), (1, 0, 0), (0, 1, 1), (0, -1, 1)]  # below, above, left, right, farther below, farther above


class Walks:
    """The arrows and tags of a cube's walks."""

    def __init__(self, cube, at):
        self.cube, self.at, self.r = cube, at, radius(cube.n)
        self.right, self.bottom = max(x for x, _ in at), max(y for _, y in at)
        self.drawn = [(ink, walk) for ink, walk in zip(INKS, cube.walks) if walk.ending != 'refused']
        self.tagged = set()

    def letter(self, ink):
        return ink.upper() if len(self.cube.walks) > 1 else ''

    def towards(self, a, b):
        """The unit vector from a node to another, and their distance in pixels."""
        (x1, y1), (x2, y2) = self.at[a], self.at[b]
        length = sqrt((x2 - x1) ** 2 + (y2 - y1) ** 2)
        return (x2 - x1) / length, (y2 - y1) / length, length

    def lane(self, ink, hop, a, b):
        """Which of the lanes of an edge is a hop's, counted from the edge's middle."""
        sharing = [(other, k) for other, walk in self.drawn for k, ends in enumerate(walk.hops(), 1) if ends in ((a, b), (b, a))]
        return sharing.index((ink, hop)) - (len(sharing) - 1) / 2

    def badge_place(self, a, b, begin, neck, lane):
        """How far from the middle of a the number of a hop stands: on a long edge between the 4-cubes, else amid the shaft or a shared edge."""
        if a ^ b < 16:
            return self.towards(a, b)[2] / 2 if lane else (begin + neck) / 2
        x, y = self.at[a]
        middle = TILE_SIDE + GAP / 2
        if a ^ b == 16:
            return abs(MARGIN + middle - x)
        return abs(self.bottom - middle - y)

    def along(self, ink, hop, a, b):
        """A hop's arrow, in pixels from the middle of a: where it begins, the neck and tip of its head, and how far aside its lane is."""
        ux, uy, length = self.towards(a, b)
        begin = reach(self.cube.labels[a], self.r, ux, uy) + 4
        tip = length - reach(self.cube.labels[b], self.r, ux, uy) - 3
        return begin, tip - 13, tip, self.lane(ink, hop, a, b) * (1 if a < b else -1)

    def point(self, a, b, forward, aside):
        ux, uy, _ = self.towards(a, b)
        x, y = self.at[a]
        return x + ux * forward - uy * aside, y + uy * forward + ux * aside

    def arrow(self, ink, hop, a, b):
        begin, neck, tip, lane = self.along(ink, hop, a, b)
        aside = LANE * lane
        (x1, y1), (x2, y2) = self.point(a, b, begin, aside), self.point(a, b, neck + 1, aside)
        yield f'  <line class="way walk-{ink}" x1="{x1:.1f}" y1="{y1:.1f}" x2="{x2:.1f}" y2="{y2:.1f}"/>'
        head = [self.point(a, b, tip, aside), self.point(a, b, neck, aside + 8), self.point(a, b, neck, aside - 8)]
        yield f'  <path class="fill-{ink}" d="M' + ' L'.join(f'{x:.1f} {y:.1f}' for x, y in head) + ' Z"/>'

    def badge(self, ink, hop, a, b, network):
        begin, neck, _, lane = self.along(ink, hop, a, b)
        ux, uy, _ = self.towards(a, b)
        # side by side each stands on its own shaft, 22 pixels below the one before
        aside = 9 if abs(uy) > 0.8 else 15 if abs(uy) > 0.35 else 22
        forward = (22 - aside * abs(ux)) / abs(uy) * (1 if ux * uy >= 0 else -1) if aside < 22 else 0
        x, y = self.point(a, b, self.badge_place(a, b, begin, neck, lane) + forward * lane, aside * lane)
        text = f'{self.letter(ink)}{hop}' + ('' if network is None else f': {network}{UP if a < b else DOWN}')
        width = 12 + 10 * len(text)
        yield f'  <rect class="badge walk-{ink}" x="{x - width / 2:.1f}" y="{y - 10:.1f}" width="{width}" height="20" rx="10"/>'
        yield f'  <text class="hop" x="{x:.1f}" y="{y + 4.5:.1f}">{text}</text>'

    def covered(self, k, x, y, width):
        """How much the tag of k covers, centred here: of 40 points of each walk's edges; far more if it touches another node or the border."""
        lines = [(self.at[a], self.at[b]) for _, walk in self.drawn for a, b in walk.hops()]
        points = [(x1 + (x2 - x1) * t / 40, y1 + (y2 - y1) * t / 40) for (x1, y1), (x2, y2) in lines for t in range(41)]

        def off(px, py):
            """How far a point is from the tag, aside and up or down."""
            return max(abs(px - x) - width / 2, 0), max(abs(py - y) - TAG_HEIGHT / 2, 0)
        under = sum(max(off(*point)) <= 6 for point in points)
        touched = sum(dx * dx + dy * dy < (1.3 * self.r) ** 2 for dx, dy in (off(*place) for place in self.at[:k] + self.at[k + 1:]))
        outside = not 4 <= x - width / 2 <= self.right + MARGIN - 4 - width
        return under + 100 * touched + 1000 * outside

    def tag_place(self, k, width):
        """Beside a node, where no tag is yet: the first of the sides where the fewest arrows are."""
        def place(side):
            (x, y), (sx, sy, row) = self.at[k], side
            away = reach(self.cube.labels[k], self.r, sx, sy) + 5
            return round(x + sx * (away + width / 2)), round(y + sy * (away + TAG_HEIGHT / 2 + 20 * row))
        side = min((side for side in SIDES if (k, side) not in self.tagged), key=lambda side: self.covered(k, *place(side), width))
        self.tagged.add((k, side))
        return place(side)

    def tag(self, ink, k, word, hollow=False):
        text = f'{self.letter(ink)} {word}'.strip()
        width = 9 * len(text) + 10
        x, y = self.tag_place(k, width)
        box = f'badge walk-{ink}' if hollow else f'fill-{ink}'
        yield f'  <rect class="{box}" x="{x - width / 2:g}" y="{y - TAG_HEIGHT / 2:g}" width="{width}" height="{TAG_HEIGHT}" rx="4"/>'
        yield f'  <text class="{"hop" if hollow else "tag"}" x="{x}" y="{y + 4}">{text}</text>'

    def arrows(self):
        for ink, walk in self.drawn:
            by = '' if walk.networks is None else f' data-networks="{" ".join(map(str, walk.networks))}"'
            yield f'<g id="walk-{ink}" data-ending="{walk.ending}" data-visited="{" ".join(map(str, walk.visited))}"{by}>'
            for hop, (a, b) in enumerate(walk.hops(), 1):
                yield from self.arrow(ink, hop, a, b)
            yield '</g>'

    def badges(self):
        yield '<g class="badges">'
        for ink, walk in self.drawn:
            networks = walk.networks or [None] * len(walk.hops())
            for hop, ((a, b), network) in enumerate(zip(walk.hops(), networks), 1):
                yield from self.badge(ink, hop, a, b, network)
        yield '</g>'

    def tags(self):
        """At the source, at the end, and at the destination of a walk that halts."""
        for ink, walk in self.drawn:
            end = 'to' if walk.ending == 'delivered' else 'halts'
            yield f'<g class="tags-{ink}">'
            if walk.hops():
                yield from self.tag(ink, walk.source, 'from')
                yield from self.tag(ink, walk.visited[-1], end)
            else:
                yield from self.tag(ink, walk.source, f'from, {end}')
            if end == 'halts':
                yield from self.tag(ink, walk.destination, 'to', hollow=True)
            yield '</g>'
