#!/usr/bin/env python3
"""Writes the inputs of fprun that need the most machine stack, and what fprun has to print for each, into a folder.

    tests/deep_inputs.py FOLDER

nesting: 256 open names, each body with 32 marks, a construction with a chain at every level.
waiting: half a million elements of constructions that wait.
equality: eq on an object nested 4,000 deep, against itself.
rounds: 1,000,000 steps in one while.
"""
import os
import sys


def nesting():
    body = 'main'
    for _ in range(32):
        body = '[%s.id]' % body
    # to a name: its own application, the outer chain and its id, then 32 constructions, chains and ids
    steps = 256 * (1 + 2 + 32 * 3) + 1
    return 'main=%s.id;' % body, '23 0 0 %d 0 0\n' % steps


def waiting():
    # to a name: its own application, the construction, 2,000 ids
    steps = 256 * (1 + 1 + 2000) + 1
    return 'main=[%s,main];' % ','.join(['id'] * 2000), '23 0 0 %d 0 0\n' % steps


def equality():
    deep = '.'.join(['[id]'] * 500)
    # main, its chain, eight names with a chain of 500 constructions and ids, the pair with two ids, eq; then a pair at each level
    steps = 2 + 8 * (2 + 500 * 2) + 3 + 1 + 4001
    return 'main=eq.[id,id].%s;deep=%s;' % ('.'.join(['deep'] * 8), deep), '20 0 0 %d 4002 1\nT\n' % steps


def rounds():
    return 'main=(%T?id);', '22 0 0 1000000 0 0\n'


def main():
    folder = sys.argv[1]
    os.makedirs(folder, exist_ok=True)
    for case in (nesting, waiting, equality, rounds):
        program, expected = case()
        with open(os.path.join(folder, case.__name__ + '.in'), 'w') as out:
            out.write('1000000 256 4096\n%s\n5\n' % program)
        with open(os.path.join(folder, case.__name__ + '.expected'), 'w') as out:
            out.write(expected)


main()
