"""picture.py: a listing on standard input, with the pairs k k at its end (listing.py), as an SVG on standard output.

The same listing gives the same bytes everywhere: coordinates are whole numbers and square roots.
"""
import os
import sys
from xml.sax.saxutils import escape

import legend
import listing
from shapes import FAULTY, NAMES, places, radius, shape
from walks import Walks

PAPER = '''
  .paper { fill: #ffffff; stroke: #ccd1d7 }
  text { font-family: Verdana, "DejaVu Sans", sans-serif; fill: #1b1f24 }
'''
STYLE = '''\
  .edge { stroke: #a4acb5; stroke-width: 1.6 }
  .long { stroke: #d0d6dc; stroke-width: 1.4 }
  .dead { stroke-dasharray: 2 5 }
  .shape { stroke-width: 2.5; stroke-linejoin: round }
  .safe .shape { fill: #d3f0e4; stroke: #00805e }
  .ordinary .shape { fill: #ffe3a3; stroke: #a66a00 }
  .strong .shape { fill: #f4a582; stroke: #a02c00 }
  .faulty .shape { fill: #3a3f45; stroke: #1b1f24 }
  .number { text-anchor: middle; font-weight: bold; font-size: 17px }
  .small .number { font-size: 13px }
  .bits { text-anchor: middle; font-size: 9.5px }
  .faulty .number, .faulty .bits { fill: #ffffff }
  .way { stroke-width: 6 }
  .badge { fill: #ffffff; stroke-width: 2 }
  .hop { text-anchor: middle; font-weight: bold; font-size: 12.5px }
  .tag { text-anchor: middle; font-weight: bold; font-size: 12.5px; fill: #ffffff }
  .walk-a { stroke: #0057a8 }
  .walk-b { stroke: #8a1a8a }
  .walk-c { stroke: #7a4b00 }
  .fill-a { fill: #0057a8 }
  .fill-b { fill: #8a1a8a }
  .fill-c { fill: #7a4b00 }
'''
WORDS = '''\
  .head { font-size: 17px; font-weight: bold }
  .said { font-size: 13.5px }
  .note { font-size: 12px; fill: #4a525c }
  .alarm { font-size: 13.5px; font-weight: bold; fill: #a02c00 }
'''


def edges(cube, at):
    """A group for each dimension; dotted where an end is faulty, since no frame crosses such an edge."""
    for i in range(cube.n):
        yield f'<g class="{"edge" if i < 4 else "long"}" data-dimension="{i}">'
        for a in range(1 << cube.n):
            b = a | 1 << i
            if a != b:
                dead = ' class="dead"' if FAULTY in (cube.labels[a], cube.labels[b]) else ''
                yield f'  <line{dead} x1="{at[a][0]}" y1="{at[a][1]}" x2="{at[b][0]}" y2="{at[b][1]}"/>'
        yield '</g>'


def nodes(cube, at):
    """Each node once, with its label as the group's class, and its number inside."""
    yield '<g class="nodes">' if cube.n <= 4 else '<g class="nodes small">'
    for k, (x, y) in enumerate(at):
        label = cube.labels[k]
        yield f'<g id="node-{k}" class="{NAMES[label]}" data-label="{label}">'
        yield '  ' + shape(label, x, y, radius(cube.n))
        if 2 <= cube.n <= 4:
            yield f'  <text class="number" x="{x}" y="{y + 3}">{k}</text>'
            yield f'  <text class="bits" x="{x}" y="{y + 15}">{k:0{cube.n}b}</text>'
        else:
            yield f'  <text class="number" x="{x}" y="{y + 5}">{k}</text>'
        yield '</g>'
    yield '</g>'


def sheet(width, height, title, lines, style, parts):
    """The lines of an SVG of this size: what it shows, the lines that it is drawn from, and its parts on paper."""
    yield f'<svg xmlns="http://www.w3.org/2000/svg" width="{width}" height="{height}" viewBox="0 0 {width} {height}" role="img">'
    yield f'<title>{escape(title)}</title>'
    yield '<desc>' + escape('\n'.join(lines)) + '</desc>'
    yield f'<style>{PAPER}{style}{WORDS}</style>'
    yield f'<rect class="paper" width="{width}" height="{height}"/>'
    for part in parts:
        yield from part
    yield '</svg>'


def picture(cube):
    """The lines of the SVG: the cube on the left, in the middle of the height, and the legend beside it."""
    at, width, height = places(cube.n)
    words = legend.Legend(cube, width + 6, 54)
    whole, tall = width + legend.WIDTH, max(height, words.y)
    at = [(x, y + (tall - height) // 2) for x, y in at]
    walks = Walks(cube, at)
    parts = (edges(cube, at), walks.arrows(), nodes(cube, at), walks.badges(), walks.tags(), ['<g class="legend">', *words.lines, '</g>'])
    return sheet(whole, tall, legend.summary(cube), cube.lines, STYLE, parts)


def draw(drawn):
    """Writes what is drawn of the lines on standard input; the exit status."""
    try:
        lines = sys.stdin.buffer.read().decode('ascii', 'replace').splitlines()
        text = '\n'.join(drawn(lines)) + '\n'
        sys.stdout.write(text.encode('ascii', 'xmlcharrefreplace').decode('ascii'))
        sys.stdout.flush()
    except listing.Refused as why:
        print(f'draw: {why}', file=sys.stderr)
        return why.status
    except OSError as why:
        os.dup2(os.open(os.devnull, os.O_WRONLY), sys.stdout.fileno())  # or Python says it once more
        print(f'draw: the picture could not be written: {why.strerror}', file=sys.stderr)
        return 2
    return 0


if __name__ == '__main__':
    sys.exit(draw(lambda lines: picture(listing.read(lines))))
