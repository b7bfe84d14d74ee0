"""shares.py N: a tally on standard input as an SVG on standard output: by number of faults, how the walks of all tables of cube N end.

A row has a bar, whose parts stand in the order of the columns behind it, and in these their percentages. What a part stands for is
told by its stripes too, and not by colour alone.
"""
import sys

from legend import plural
from listing import Refused
from picture import draw, sheet

ENDS = [('none', 'delivered', '0 extra hops'), ('two', 'delivered', '2 extra hops'), ('four', 'delivered', '4 extra hops'), ('halted', 'halted')]
COLUMN = 88
LEFT, BAR, COLUMNS = 84, 400, 84 + 400 + COLUMN
TOP, ROW, THICK = 136, 27, 19
LEAST = 3  # pixels of a part that is not 0
STYLE = '''\
  .part { stroke: #1b1f24; stroke-width: 0.8 }
  .none { fill: #d3f0e4 }
  .two { fill: #ffe3a3 }
  .four { fill: #f4a582 }
  .halted { fill: #3a3f45 }
  .stripes { stroke: #1b1f24; stroke-width: 1 }
  .share { text-anchor: end; font-size: 12.5px }
  .aside { text-anchor: end; font-size: 11px; fill: #4a525c }
'''


def lines_of(lines, n):
    """Those of cube n, as they are and as numbers."""
    begin = lines.index(f'cube {n}') + 1 if f'cube {n}' in lines else len(lines)
    said = lines[begin:begin + (1 << n) + 1]
    if not all(word.isdecimal() for line in said for word in line.split()):
        raise Refused(f'not the lines of a tally, of cube {n}')
    return said, [[int(word) for word in line.split()] for line in said]


def read(lines, n):
    """The lines of cube n. There must be one for each number of faults, with walks between all pairs of working nodes."""
    said, rows = lines_of(lines, n)
    if len(rows) != (1 << n) + 1:
        raise Refused(f'a tally has {plural((1 << n) + 1, "line")} of cube {n}, and this one {len(rows)}')
    for faults, row in enumerate(rows):
        if len(row) != 7 or row[0] != faults or sum(row[3:]) != row[1] * ((1 << n) - faults) ** 2 or row[2] > row[1]:
            raise Refused(f'not the line of a tally, of cube {n} and {plural(faults, "fault")}: {said[faults]}')
    return said, rows


def percent(part, whole):
    """0 and 100 stand for none and all, without places."""
    if part in (0, whole):
        return '100' if part else '0'
    rounded = (20000 * part + whole) // (2 * whole)
    return f'{rounded // 100}.{rounded % 100:02}'


def widths(walks):
    """Of the parts of a bar, in pixels: the largest has what the others leave."""
    whole = sum(walks)
    parts = [max(LEAST, (2 * BAR * part + whole) // (2 * whole)) if part else 0 for part in walks]
    largest = walks.index(max(walks))
    parts[largest] += BAR - sum(parts)
    return parts


def part(name, x, y, width):
    """A part of a bar. With 2 extra hops it has upright stripes, with 4 level ones."""
    yield f'  <rect class="part {name}" x="{x}" y="{y}" width="{width}" height="{THICK}"/>'
    if name == 'two':
        stripes = [f'M{x + k} {y} V{y + THICK}' for k in range(3, width, 5)]
    else:
        stripes = [f'M{x} {y + k} H{x + width}' for k in range(4, THICK, 5)] if name == 'four' else []
    if stripes:
        yield f'  <path class="stripes" d="{" ".join(stripes)}"/>'


def row(y, faults, tables, none_safe, *walks):
    yield f'<g id="faults-{faults}">'
    yield f'  <text class="share" x="{LEFT - 16}" y="{y + 14}">{faults}</text>'
    if sum(walks):
        x = LEFT
        for (name, *_), width in zip(ENDS, widths(walks)):
            if width:
                yield from part(name, x, y, width)
            x += width
    else:
        yield f'  <text class="note" x="{LEFT}" y="{y + 14}">no node works, and there is no walk</text>'
    shares = [percent(end, sum(walks)) if sum(walks) else '\u2013' for end in walks] + [percent(none_safe, tables)]
    for column, text in enumerate(shares):
        yield f'  <text class="share" x="{COLUMNS + column * COLUMN}" y="{y + 14}">{text}</text>'
    yield '</g>'


def heads(n, walks):
    """What is shown, and what stands in each column."""
    yield f'<text class="head" x="24" y="38">cube {n}: how {walks:,} walks end, by number of faults</text>'
    among = f'in percent of the ordered pairs of working nodes, a node and itself among them, of all {1 << (1 << n):,} fault tables'
    yield f'<text class="note" x="24" y="60">{among}</text>'
    yield f'<text class="aside" x="{LEFT - 16}" y="{TOP - 16}">faults</text>'
    for column, (name, *words) in enumerate(ENDS + [('', 'tables with', 'no safe node')]):
        x = COLUMNS + column * COLUMN
        if name:
            yield from part(name, x - 36, TOP - 62, 36)
        for line, text in enumerate(words):
            yield f'<text class="aside" x="{x}" y="{TOP - 28 + 14 * line}">{text}</text>'


def picture(said, rows, n):
    height = TOP + ROW * len(rows) + 36
    walks = sum(sum(line[3:]) for line in rows)
    title = f'cube {n}: how {walks} walks end, by number of faults'
    note = [f'<text class="note" x="{LEFT}" y="{height - 20}">A part of a bar that is not 0 is {LEAST} pixels wide or more.</text>']
    bars = (row(TOP + ROW * faults, *line) for faults, line in enumerate(rows))
    return sheet(COLUMNS + 4 * COLUMN + 24, height, title, [f'cube {n}', *said], STYLE, [heads(n, walks), *bars, note])


if __name__ == '__main__':
    cube = int(sys.argv[1])
    sys.exit(draw(lambda lines: picture(*read(lines, cube), cube)))
