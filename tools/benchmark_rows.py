#!/usr/bin/env python3
"""Rows for the tables of docs/BENCHMARKS.md from several outputs of bench/run-reading or bench/run-evaluating.

    tools/benchmark_rows.py FILE..

A row has the middle of each time, and the middle, the least and the most of each ratio.
"""
import re
import statistics
import sys

# a name, perhaps an answer's number and its steps, three times and two ratios
LINE = re.compile(r'^(.*?)\s+(\d+\s+\d+\s+)?([\d.]+)\s+([\d.]+)\s+([\d.]+)\s+([\d.]+)\s+([\d.]+)$')


def shown(x):
    return '%.2f' % x if x < 10 else '%.1f' % x if x < 100 else '{:,.0f}'.format(x)


def measured(files):
    rows = {}
    for path in files:
        for line in open(path):
            found = LINE.match(line.rstrip('\n'))
            if found:
                key = (found.group(1), tuple((found.group(2) or '').split()))
                rows.setdefault(key, []).append([float(x) for x in found.groups()[2:]])
    return rows


def main():
    for (name, counts), runs in measured(sys.argv[1:]).items():
        columns = list(zip(*runs))
        cells = [name] + ['{:,}'.format(int(n)) for n in counts]
        cells += [shown(statistics.median(times)) for times in columns[:3]]
        cells += ['%s (%s to %s)' % (shown(statistics.median(c)), shown(min(c)), shown(max(c))) for c in columns[3:]]
        print('| %s |' % ' | '.join(cells))


main()
