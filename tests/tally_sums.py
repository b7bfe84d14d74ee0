"""tally_sums.py: whether the figures of a tally, on standard input, add up.

Of each cube of n = 1 to 4, n first, there must be a line for each number of faults: as many tables as there are sets of so many
nodes; walks between all ordered pairs of working nodes, whatever their end; and what is proved of all walks (docs/RULES.md,
When frames arrive). What is wrong is printed, and then the exit status is 1; the last line has the sums.
"""
import re
import sys
from math import comb

CUBES = range(1, 5)
wrong = []


def expect(holds, what):
    if not holds:
        wrong.append(what)


def figures_of(lines):
    """By dimension, the lines behind `cube N` as numbers."""
    cubes, lines_of = {}, None
    for line in lines:
        head = re.fullmatch(r'cube ([1-9])', line)
        if head:
            lines_of = cubes.setdefault(int(head.group(1)), [])
        elif lines_of is None or not re.fullmatch(r'(0|[1-9]\d*)( (0|[1-9]\d*)){6}', line):
            expect(False, f'not a line of a tally: {line}')
        else:
            lines_of.append([int(word) for word in line.split()])
    return cubes


def check_line(n, faults, tables, none_safe, *walks):
    """walks: delivered with 0, 2 and 4 extra hops, halted."""
    at = f'cube {n}, {faults} faults'
    nodes, aside, halted = 1 << n, sum(walks[1:3]), walks[3]
    expect(tables == comb(nodes, faults), f'{at}: {tables} tables')
    expect(sum(walks) == tables * (nodes - faults) ** 2, f'{at}: {sum(walks)} walks')
    expect(none_safe <= tables, f'{at}: {none_safe} tables without a safe node')
    expect(faults >= n or none_safe == 0, f'{at}: a table has no safe node')
    expect(none_safe or halted == 0, f'{at}: each table has a safe node, and a walk halts')
    expect(none_safe < tables or aside == 0, f'{at}: no table has a safe node, and a walk takes extra hops')


def check_cube(n, lines):
    expect([line[0] for line in lines] == list(range((1 << n) + 1)), f'cube {n}: not a line for each number of faults')
    for line in lines:
        check_line(n, *line)
    tables = sum(line[1] for line in lines)
    expect(tables == 1 << (1 << n), f'cube {n}: {tables} tables')


def main():
    text = sys.stdin.read()
    cubes = figures_of(text.splitlines())
    expect(text.endswith('\n'), 'the last line has no end')
    expect(list(cubes) == list(CUBES), f'cubes {list(cubes)}')
    for n, lines in cubes.items():
        check_cube(n, lines)
    for what in wrong:
        print(f'  {what}')
    every = [line for lines in cubes.values() for line in lines]
    print(f'{len(cubes)} cubes, {sum(line[1] for line in every)} tables, {sum(sum(line[3:]) for line in every)} walks, {len(wrong)} wrong')
    return 1 if wrong else 0


if __name__ == '__main__':
    sys.exit(main())
