"""shares_check.py PICTURE TALLY N: whether a picture shows the shares of cube N of a tally.

Every number of faults must be there once, with its percentages and a bar whose parts have about their lengths, in order, and
their stripes; the words must have the sums; texts must not run into each other or out of the picture. What is wrong is printed,
and then the exit status is 1.
"""
import sys

from picture_check import SVG, check_space, expect, number, open_picture, verdict

ENDS = ['none', 'two', 'four', 'halted']
STRIPES = {'two': {'V'}, 'four': {'H'}}
HEADS = [['delivered', '0 extra hops'], ['delivered', '2 extra hops'], ['delivered', '4 extra hops'], ['halted'], ['tables with', 'no safe node']]
BAR = 400
OFF = 6  # pixels that other parts, too small to be seen, may take from a part


def rows_of(tally, n):
    """The lines of cube n, as numbers."""
    lines = open(tally, encoding='ascii').read().splitlines()
    first = lines.index(f'cube {n}') + 1
    return lines[first - 1:first + 2 ** n + 1], [[int(word) for word in line.split()] for line in lines[first:first + 2 ** n + 1]]


def percent(part, whole):
    return '0' if part == 0 else '100' if part == whole else f'{100 * part / whole:.2f}'


def check_bar(group, faults, walks):
    parts = [(kind, rect, path) for rect, path in zip(group, list(group)[1:] + [None]) for kind in ENDS if rect.get('class') == f'part {kind}']
    expect([kind for kind, *_ in parts] == [kind for kind, walk in zip(ENDS, walks) if walk], f'{faults} faults: not the parts of the bar')
    x = number(parts[0][1], 'x') if parts else 0
    for kind, rect, path in parts:
        width, share = number(rect, 'width'), walks[ENDS.index(kind)] / sum(walks)
        expect(number(rect, 'x') == x and width >= 3 and abs(width - BAR * share) <= OFF, f'{faults} faults: the part {kind} is elsewhere')
        stripes = set(path.get('d')) & {'V', 'H'} if path is not None and path.get('class') == 'stripes' else set()
        expect(stripes == STRIPES.get(kind, set()) or width == 3 and not stripes, f'{faults} faults: the stripes of {kind}')
        x += width
    expect(not parts or x == number(parts[0][1], 'x') + BAR, f'{faults} faults: the bar is not whole')


def check_row(group, faults, tables, none_safe, *walks):
    shares = [percent(walk, sum(walks)) if sum(walks) else '\u2013' for walk in walks] + [percent(none_safe, tables)]
    texts = [text.text for text in group.iter(SVG + 'text') if text.get('class') == 'share']
    expect(texts == [str(faults), *shares], f'{faults} faults: {texts}, where {shares} are wanted')
    notes = [text.text for text in group.iter(SVG + 'text') if text.get('class') == 'note']
    expect(notes == ([] if sum(walks) else ['no node works, and there is no walk']), f'{faults} faults: {notes}')
    check_bar(group, faults, walks)


def check_heads(root, n, walks):
    """The sums, and over each column what it has, its part of a bar above it."""
    texts = [text.text for text in root.iter(SVG + 'text')]
    expect(f'cube {n}: how {walks:,} walks end, by number of faults' in texts, 'the head has other sums')
    expect(any(f'of all {2 ** 2 ** n:,} fault tables' in text for text in texts), 'the head has another number of tables')
    columns = [number(text, 'x') for text in root.find(f"{SVG}g[@id='faults-0']").iter(SVG + 'text')][1:]
    heads = [[text.text for text in root.findall(SVG + 'text') if text.get('class') == 'aside' and number(text, 'x') == x] for x in columns]
    expect(heads == HEADS, f'the columns are {heads}')
    keys = [rect for rect in root.findall(SVG + 'rect') if (rect.get('class') or '').startswith('part ')]
    expect([(key.get('class')[5:], number(key, 'x') + number(key, 'width')) for key in keys] == list(zip(ENDS, columns)), 'not each part over its column')


def main(picture, tally, n):
    root = open_picture(picture)
    lines, rows = rows_of(tally, n)
    groups = [group for group in root.iter(SVG + 'g') if (group.get('id') or '').startswith('faults-')]
    expect([group.get('id') for group in groups] == [f'faults-{faults}' for faults in range(2 ** n + 1)], 'not each number of faults once, in order')
    for group, row in zip(groups, rows):
        check_row(group, *row)
    walks = sum(sum(row[3:]) for row in rows)
    check_heads(root, n, walks)
    expect(root.find(SVG + 'title').text == f'cube {n}: how {walks} walks end, by number of faults', 'the title has other sums')
    expect(root.find(SVG + 'desc').text == '\n'.join(lines), 'the lines are not the description')
    check_space(root, False)
    return verdict()


if __name__ == '__main__':
    sys.exit(main(sys.argv[1], sys.argv[2], int(sys.argv[3])))
