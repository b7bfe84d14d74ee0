"""picture_check.py PICTURE LABELS LISTING: whether a picture shows these labels and this listing.

LABELS has a digit for each node, LISTING the lines, both from the reference; a walk by virtual networks has `by` and the
network of each hop behind its nodes. A picture is read as XML; every node must be there once with its label's class,
shape and number, every edge once between its two nodes, every walk hop by hop; the words must have the counts and the
pairs; texts must not run into each other or out of the picture. What is wrong is printed, and then the exit status is 1.
"""
import re
import sys
import xml.etree.ElementTree as ET

SVG = '{http://www.w3.org/2000/svg}'
NAMES = ['safe', 'ordinary', 'strong', 'faulty']
SIZES = {'number': 17, 'bits': 9.5, 'hop': 12.5, 'tag': 12.5, 'head': 17, 'said': 13.5, 'note': 12, 'alarm': 13.5, 'share': 12.5, 'aside': 11}
UP, DOWN = '\u2191\u2193'
REASONS = {'5': 'there is no such node', '6': 'the source is faulty', '7': 'the destination is faulty', '16': 'it needs a network that the board lacks'}
wrong = []


def expect(holds, what):
    if not holds:
        wrong.append(what)


def number(element, name):
    return float(element.get(name))


def middle(element):
    """The middle of a shape, and how many corners it has: 0 of a circle."""
    if element.tag == SVG + 'circle':
        return (number(element, 'cx'), number(element, 'cy')), 0
    if element.tag == SVG + 'rect':
        return (number(element, 'x') + number(element, 'width') / 2, number(element, 'y') + number(element, 'height') / 2), 4
    points = [tuple(map(float, point.split())) for point in re.findall(r'[ML]([-0-9.]+ [-0-9.]+)', element.get('d'))]
    return tuple(sum(point[axis] for point in points) / len(points) for axis in (0, 1)), len(points)


def check_nodes(root, labels):
    """Each node once; where they stand."""
    groups = [group for group in root.iter(SVG + 'g') if (group.get('id') or '').startswith('node-')]
    expect([group.get('id') for group in groups] == [f'node-{k}' for k in range(len(labels))], 'not each node once, in order')
    at = []
    for k, (group, label) in enumerate(zip(groups, labels)):
        expect(group.get('data-label') == str(label) and group.get('class') == NAMES[label], f'node {k} has not label {label}')
        shapes = [element for element in group if element.get('class') == 'shape']
        texts = [element for element in group if element.get('class') == 'number']
        expect(len(shapes) == 1 and len(texts) == 1, f'node {k} has not one shape and one number')
        place, corners = middle(shapes[0])
        is_square = shapes[0].tag == SVG + 'rect'
        expect((corners, is_square) == [(0, False), (4, True), (4, False), (8, False)][label], f'node {k} has another label\'s shape')
        expect(texts[0].text == str(k) and abs(number(texts[0], 'x') - place[0]) < 1 and abs(number(texts[0], 'y') - place[1]) < 8,
               f'node {k} has not its number inside')
        at.append(place)
    apart = min([((x - a) ** 2 + (y - b) ** 2) ** 0.5 for i, (x, y) in enumerate(at) for a, b in at[:i]])
    expect(apart > 64, f'two nodes are {apart:.0f} apart')
    return at


def nearest(at, x, y):
    """The node whose middle is there, or None."""
    return next((k for k, (a, b) in enumerate(at) if abs(a - x) < 0.6 and abs(b - y) < 0.6), None)


def check_edges(root, n, at, labels):
    groups = {group.get('data-dimension'): group for group in root.iter(SVG + 'g') if group.get('data-dimension')}
    expect(sorted(groups) == [str(i) for i in range(n)], 'not a group of edges for each dimension')
    for i in range(n):
        drawn = []
        for line in groups.get(str(i), ()):
            a, b = (nearest(at, number(line, 'x' + end), number(line, 'y' + end)) for end in '12')
            drawn.append((a, b))
            if None not in (a, b):
                expect((line.get('class') == 'dead') == (3 in (labels[a], labels[b])), f'edge {a} {b} is dotted, or not, wrongly')
        expect(sorted(drawn, key=str) == sorted([(k, k | 1 << i) for k in range(1 << n) if not k >> i & 1], key=str),
               f'not each edge of dimension {i} once')


def along(at, a, b, x, y):
    """How far a point is from a towards b, and aside of the line from a to b."""
    (x1, y1), (x2, y2) = at[a], at[b]
    length = ((x2 - x1) ** 2 + (y2 - y1) ** 2) ** 0.5
    ux, uy = (x2 - x1) / length, (y2 - y1) / length
    return (x - x1) * ux + (y - y1) * uy, abs((x - x1) * uy - (y - y1) * ux), length


def check_walk(group, at, ending, visited, networks):
    expect(group.get('data-ending') == ending and group.get('data-visited') == ' '.join(map(str, visited)), f'not the walk {visited}')
    expect(group.get('data-networks') == (None if networks is None else ' '.join(networks)), f'not by the networks {networks}')
    hops = list(zip(visited, visited[1:]))
    lines = [line for line in group if line.tag == SVG + 'line']
    heads = [path for path in group if path.tag == SVG + 'path']
    expect(len(lines) == len(hops) == len(heads), f'not an arrow for each hop of {visited}')
    for (a, b), line, head in zip(hops, lines, heads):
        begin, aside, length = along(at, a, b, number(line, 'x1'), number(line, 'y1'))
        x, y = map(float, re.match(r'M([-0-9.]+) ([-0-9.]+)', head.get('d')).groups())
        tip, tip_aside, _ = along(at, a, b, x, y)
        expect(12 < begin < 45 and 12 < length - tip < 45 and begin < tip and max(aside, tip_aside) < 12, f'the arrow from {a} to {b} is elsewhere')


def check_walks(root, at, lines):
    """The walks of the pairs' lines, and the numbers of their hops."""
    groups = {group.get('id'): group for group in root.iter(SVG + 'g') if (group.get('id') or '').startswith('walk-')}
    pairs = [line.split() for line in lines[1:]]
    drawn = {f'walk-{"abc"[i]}': pair for i, pair in enumerate(pairs) if pair[2] != 'refused'}
    expect(sorted(groups) == sorted(drawn), 'not a group for each walk')
    wanted = []
    for name, pair in drawn.items():
        end = pair.index('by') if 'by' in pair else len(pair)
        visited, networks = [int(k) for k in pair[4:end]], pair[end + 1:] if 'by' in pair else None
        if name in groups:
            check_walk(groups[name], at, pair[2], visited, networks)
        letter = name[-1].upper() if len(pairs) > 1 else ''
        behind = [f': {network}{UP if a < b else DOWN}' for a, b, network in zip(visited, visited[1:], networks)] if networks else [''] * int(pair[3])
        wanted += [f'{letter}{hop}{more}' for hop, more in enumerate(behind, 1)]
    badges = [text.text for group in root.iter(SVG + 'g') if group.get('class') == 'badges' for text in group.iter(SVG + 'text')]
    expect(badges == wanted, f'hop numbers {badges}, where {wanted} are wanted')


def check_words(root, lines):
    head = lines[0].split()
    faulty, safe, ordinary, strong, rounds = head[3::2]
    title, desc = root.find(SVG + 'title').text, root.find(SVG + 'desc').text
    texts = [text.text for text in root.iter(SVG + 'text')]
    counts = [f'{safe} safe', f'{ordinary} ordinarily unsafe', f'{strong} strongly unsafe', f'{faulty} faulty']
    expect(title.startswith(f'cube {head[1]}: ' + ', '.join(counts)), f'the title is {title}')
    expect(desc == '\n'.join(lines), 'the listing is not the description')
    for words in counts:
        expect(texts.count(words) == 1, f'the legend does not say {words}')
    expect(any(text.startswith(f'labelled in {rounds} round') for text in texts), f'the legend does not say {rounds} rounds')
    expect(('no node is safe: an alarm' in texts) == (safe == '0'), 'the alarm is not said, or said wrongly')
    for line in lines[1:]:
        s, d, ending, value = line.split()[:4]
        said = [text for text in texts if re.search(rf'(^|: ){s} to {d}: {ending}\b.*\b{value}\b', text)]
        expect(said and f'{s} to {d} {ending}' in title, f'the legend does not say: {line}')
        expect(ending != 'refused' or REASONS.get(value) in texts, f'the legend does not say why: {line}')
        if ending == 'halted' and ' by' in line:
            at = line.partition(' by')[0].split()[-1]
            expect(f'no block of FORWARD hops at {at}' in texts, f'the legend does not say where no block hops: {line}')
        by = re.search(r' by( .*)', line)
        expect(not by or ' '.join(texts).count(f'networks{by.group(1)}') and f'networks{by.group(1)}' in title, f'the networks are not said: {line}')


def boxes(root):
    """Each text with its class and about where it stands: left, top, right, bottom."""
    small = any((group.get('class') or '') == 'nodes small' for group in root.iter(SVG + 'g'))
    for text in root.iter(SVG + 'text'):
        kind = text.get('class')
        size = 13 if small and kind == 'number' else SIZES[kind]
        width, x, y = 0.58 * size * len(text.text), number(text, 'x'), number(text, 'y')
        left = x if kind in ('head', 'said', 'note', 'alarm') else x - width if kind in ('share', 'aside') else x - width / 2
        yield text.text, (left, y - 0.75 * size, left + width, y)


def check_space(root, crowded):
    width, height = number(root, 'width'), number(root, 'height')
    placed = list(boxes(root))
    for text, (left, top, right, bottom) in placed:
        expect(0 <= left and right <= width and 0 <= top and bottom <= height, f'"{text}" leaves the picture')
    if crowded:
        return
    for i, (text, (left, top, right, bottom)) in enumerate(placed):
        for other, (a, b, c, d) in placed[:i]:
            expect(left >= c or right <= a or top >= d or bottom <= b, f'"{text}" runs into "{other}"')


def open_picture(name):
    """Its root: on paper of its own, and without any other file."""
    with open(name, encoding='utf-8') as file:
        source = file.read()
    root = ET.fromstring(source)
    paper = next(element for element in root if element.tag == SVG + 'rect')
    expect(paper.get('class') == 'paper' and paper.get('width') == root.get('width') and paper.get('height') == root.get('height'),
           'the background is not painted')
    expect('href' not in source and 'url(' not in source and source.count('http') == 1, 'it needs another file')
    return root


def verdict():
    """Says what is wrong; the exit status."""
    for what in wrong:
        print(f'  {what}')
    return 1 if wrong else 0


def main(picture, labels, listing):
    root = open_picture(picture)
    labels = [int(digit) for digit in open(labels).read()]
    lines = open(listing).read().splitlines()
    n = len(labels).bit_length() - 1
    at = check_nodes(root, labels)
    check_edges(root, n, at, labels)
    check_walks(root, at, lines)
    check_words(root, lines)
    check_space(root, len(lines) > 2)
    return verdict()


if __name__ == '__main__':
    sys.exit(main(*sys.argv[1:]))
