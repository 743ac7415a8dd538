"""Joins the measurements of the library, of plain.c and of earlier versions: table.py LIBRARY PLAIN [BEFORE [FIRST]], files of bench.c's lines.
Prints ratios: how many times as long as plain C the library takes, and how many times as long as the library the earlier versions took."""
import sys


def read(path):
    """Each sheet and operation with its lines, one a horizon: horizon, code, effort, rows and parts, and the least time of all rounds."""
    best = {}
    with open(path) as f:
        for text in f:
            name, operation, *numbers, taken = text.rstrip('\n').split('\t')
            lines = best.setdefault((name, operation), {})
            numbers = tuple(map(int, numbers))
            lines[numbers] = min(float(taken), lines.get(numbers, float('inf')))
    return {key: sorted(lines.items()) for key, lines in best.items()}


def differ(a, b):
    """The answers, without parts and times: horizon, code, effort and rows."""
    return [x[0][:4] for x in a] != [x[0][:4] for x in b]


def print_table(library, plain, before):
    wrong = 0
    print('%-10s %-8s %4s %9s %6s %12s %16s' % ('sheet', '', 'at', 'effort', 'rows', 'to plain C', 'before, to this'))
    for key, lines in library.items():
        (horizon, code, effort, rows, _), taken = lines[-1]
        peers, old = plain[key], before[key] if before else None
        wrong += differ(lines, peers) or bool(old) and differ(lines, old)
        then = '%.1f' % (old[-1][1] / taken) if old else '-'
        print('%-10s %-8s %4d %9d %6d %12.2f %16s%s' % (*key, horizon, effort, rows, taken / peers[-1][1], then,
                                                        '' if code == 0 else '  code %d' % code))
    return wrong


def print_curve(name, curve, peers):
    """Time grows with the parts that were compiled, not with effort: all as a part of the last horizon's."""
    (_, _, most_effort, _, _), longest = curve[-1]
    most_parts = peers[-1][0][4]
    print('\ncompile %s by horizon: effort, rows and parts; effort, parts and time as a part of those at the last horizon' % name)
    for ((horizon, _, effort, rows, _), taken), (numbers, _) in zip(curve, peers):
        parts = numbers[4]
        print('%4d %9d %6d %6d %8.4f %6.3f %6.3f' % (horizon, effort, rows, parts, effort / most_effort, parts / most_parts, taken / longest))


def main():
    library, plain, before, first = [*map(read, sys.argv[1:5]), {}, {}][:4]
    wrong = print_table(library, plain, before)
    for key in sorted(first):
        if key[1] == 'compile':
            print_curve(key[0], library[key], plain[key])
            wrong += differ(library[key], first[key])
            print('at the last, the version before took %.0f times as long, the first one, without a memory of parts, %.0f times'
                  % (before[key][-1][1] / library[key][-1][1], first[key][-1][1] / library[key][-1][1]))
    if wrong:
        print('ANSWERS DIFFER on %d lines' % wrong)
    sys.exit(1 if wrong else 0)


main()
