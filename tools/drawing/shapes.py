"""shapes.py: where nodes stand and what they look like.

Each dimension has one direction and one length, so a node's place is the sum of the steps of its bits,
and one sees which dimension a hop crosses. No edge runs through a node: with n of 5 and 6 no two nodes
of a 4-cube stand in one row or column, and the long edges between 4-cubes follow rows and columns.
A label has a colour and a shape of its own.
"""
SAFE, ORDINARY, STRONG, FAULTY = range(4)
NAMES = ['safe', 'ordinary', 'strong', 'faulty']
WORDS = ['safe', 'ordinarily unsafe', 'strongly unsafe', 'faulty']

MARGIN = 72

# n: the step of each dimension, in pixels, where y grows downwards
TILE = [(208, -26), (-26, -208), (104, -52), (-52, -104)]
STEPS = {
    1: [(250, 0)],
    2: [(240, 0), (0, -240)],
    3: [(240, 0), (0, -240), (120, -100)],
    4: [(176, -73), (73, -176), (-73, -176), (-176, -73)],
    5: TILE + [(468, 0)],
    6: TILE + [(468, 0), (0, -468)],
}
TILE_SIDE = 390
GAP = 468 - TILE_SIDE


def places(n):
    """Where the nodes stand; and the width and height of the whole, margins included."""
    sums = [tuple(sum(step[axis] for i, step in enumerate(STEPS[n]) if k >> i & 1) for axis in (0, 1)) for k in range(1 << n)]
    left, top = (min(place[axis] for place in sums) - MARGIN for axis in (0, 1))
    at = [(x - left, y - top) for x, y in sums]
    return at, max(x for x, _ in at) + MARGIN, max(y for _, y in at) + MARGIN


def radius(n):
    return 25 if n <= 4 else 17


def half(label, r):
    """From the middle of a label's shape to its side or corner. All are of about the same area."""
    return {SAFE: r, ORDINARY: round(0.9 * r), STRONG: round(1.26 * r), FAULTY: r}[label]


def shape(label, x, y, r):
    """A circle, a square, a square on its corner, an octagon."""
    h = half(label, r)
    if label == SAFE:
        return f'<circle class="shape" cx="{x}" cy="{y}" r="{h}"/>'
    if label == ORDINARY:
        return f'<rect class="shape" x="{x - h}" y="{y - h}" width="{2 * h}" height="{2 * h}" rx="3"/>'
    if label == STRONG:
        corners = [(0, -h), (h, 0), (0, h), (-h, 0)]
    else:
        c = round(0.414 * h)
        corners = [(-c, -h), (c, -h), (h, -c), (h, c), (c, h), (-c, h), (-h, c), (-h, -c)]
    return '<path class="shape" d="M' + ' L'.join(f'{x + a} {y + b}' for a, b in corners) + ' Z"/>'


def reach(label, r, ux, uy):
    """From the middle of a shape to its outline, in the direction of the unit vector."""
    h = half(label, r)
    if label == STRONG:
        return h / (abs(ux) + abs(uy))
    return h / max(abs(ux), abs(uy)) if label == ORDINARY else h
