"""legend.py: the words beside the cube: how many nodes have each label, how each walk ended, which way each dimension goes."""
from math import sqrt
from textwrap import wrap

from shapes import FAULTY, NAMES, ORDINARY, SAFE, STEPS, STRONG, WORDS, shape
from walks import INKS

WIDTH = 350
WIDEST = 46  # characters of a note
MEANING = ['reaches each working node without a detour', 'and a neighbour is safe', 'and no neighbour is safe', 'takes and forwards nothing']
REFUSALS = {5: 'there is no such node', 6: 'the source is faulty', 7: 'the destination is faulty', 16: 'it needs a network that the board lacks'}


def plural(number, word):
    return f'{number} {word}' if number == 1 else f'{number} {word}s'


def outcome(walk):
    """A walk's ending in words."""
    pair, hops = f'{walk.source} to {walk.destination}', plural(len(walk.hops()), 'hop')
    if walk.ending == 'refused':
        return f'{pair}: refused {walk.refusal}'
    if walk.ending == 'halted':
        return f'{pair}: halted at {walk.visited[-1]} after {hops}'
    return f'{pair}: delivered in {hops}'


def details(walk):
    """The lines under it: the distance and the nodes of the walk; its networks; why it halted or was refused."""
    if walk.ending == 'refused':
        return [REFUSALS.get(walk.refusal, 'see include/hcube.h')]
    way = f'distance {walk.distance()}; by {" ".join(map(str, walk.visited))}'
    if walk.networks is not None:
        way = wrap(way, WIDEST) + wrap(f'networks {" ".join(map(str, walk.networks))}', WIDEST) * bool(walk.networks)
        return way + [f'no block of FORWARD hops at {walk.visited[-1]}'] * (walk.ending == 'halted')
    if walk.ending == 'halted':
        return [way, f'all neighbours of {walk.visited[-1]} nearer {walk.destination} are faulty']
    return [way]


def summary(cube):
    """All of it in one line."""
    said = [f'cube {cube.n}: ' + ', '.join(f'{cube.count(label)} {WORDS[label]}' for label in (SAFE, ORDINARY, STRONG, FAULTY))]
    for walk in cube.walks:
        said.append(outcome(walk).replace(':', '') + ('' if walk.ending == 'refused' else f', distance {walk.distance()}'))
        said[-1] += '' if not walk.networks else f', networks {" ".join(map(str, walk.networks))}'
    return '; '.join(said)


class Legend:
    """The lines of the legend, from the top down; y is where the next one goes."""

    def __init__(self, cube, x, y):
        self.cube, self.x, self.y, self.lines = cube, x, y, []
        self.say('head', f'cube {cube.n}: {1 << cube.n} nodes', 20)
        self.say('note', f'labelled in {plural(cube.rounds, "round")}, the quiet one included', 36)
        for label in (SAFE, ORDINARY, STRONG, FAULTY):
            self.label(label)
        self.y += 18
        if not cube.count(SAFE):
            self.say('alarm', 'no node is safe: an alarm', 36)
        for ink, walk in zip(INKS, cube.walks):
            self.walk(ink, walk)
        if any(walk.networks for walk in cube.walks):
            self.say('note', 'on an arrow: the hop: its network, up or down', 24)
        self.compass()

    def say(self, kind, text, down, aside=0):
        self.lines.append(f'<text class="{kind}" x="{self.x + aside}" y="{self.y}">{text}</text>')
        self.y += down

    def label(self, label):
        """Its shape, how many nodes have it, and what it means."""
        self.lines.append(f'<g class="{NAMES[label]}">' + shape(label, self.x + 12, self.y - 2, 11) + '</g>')
        self.say('said', f'{self.cube.count(label)} {WORDS[label]}', 16, 36)
        self.say('note', MEANING[label], 28, 36)

    def walk(self, ink, walk):
        letter = f'{ink.upper()}: ' if len(self.cube.walks) > 1 else ''
        under = details(walk)
        self.lines.append(f'<rect class="fill-{ink}" x="{self.x}" y="{self.y - 12}" width="5" height="{17 + 17 * len(under)}"/>')
        self.say('said', letter + outcome(walk), 18, 14)
        for text in under:
            self.say('note', text, 17, 14)
        self.y += 15

    def compass(self):
        """Which way a hop goes across each dimension where it sets the bit."""
        self.y += 4
        self.say('note', 'which way each dimension goes:', 28)
        steps = [(0.25 * dx, 0.25 * dy) for dx, dy in STEPS[self.cube.n]]
        x, y = self.x + 50 - min([0] + [dx for dx, _ in steps]), self.y - min(dy for _, dy in steps)
        for i, (dx, dy) in enumerate(steps):
            longer = 1 + 11 / sqrt(dx * dx + dy * dy)
            self.lines.append(f'<line class="{"edge" if i < 4 else "long"}" x1="{x:g}" y1="{y:g}" x2="{x + dx:g}" y2="{y + dy:g}"/>')
            self.lines.append(f'<text class="hop" x="{x + longer * dx:.1f}" y="{y + longer * dy + 4:.1f}">{i}</text>')
        self.y = round(y) + 20
