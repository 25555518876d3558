#!/usr/bin/env python3
"""Inputs of fprun and what it has to print for each. Every reply is written here by hand, by document 01; bench/check-reference
compares each with the plain implementation in bench/reference.rs.

    tests/fprun_inputs.py folder FOLDER                          # NAME.in and NAME.expected, for tests/run-fprun
    tests/fprun_inputs.py cases > crates/examples/data/inputs.cases    # the lengths of name and input, then both
    tests/fprun_inputs.py replies                                # what the program examples has to print of those
"""
import os
import struct
import sys

CALL = b'main=id;\n5\n'
FIVE = '20 0 0 2 0 1\n5\n'
OTHER = '99\n'


def shapes():
    """Input that is no call: three lines, each ended by a line feed, and three numbers of one to seven digits in the first."""
    whole = b'10 8 64\n' + CALL
    yield 'a call', whole, FIVE
    yield 'nothing', b'', OTHER
    yield 'one line feed', b'\n', OTHER
    yield 'three line feeds', b'\n\n\n', OTHER
    yield 'one line', b'10 8 64\n', OTHER
    yield 'two lines', b'10 8 64\nmain=id;\n', OTHER
    yield 'no last line feed', whole[:-1], OTHER
    yield 'a fourth line feed', whole + b'\n', OTHER
    yield 'a fourth line', whole + b'7\n', OTHER
    yield 'a byte behind', whole + b'7', OTHER
    yield 'a line feed in front', b'\n' + whole, OTHER
    yield 'a zero byte behind', whole + b'\0', OTHER
    for name, budgets in (
        ('two spaces', b'10  8 64'), ('two spaces behind', b'10 8  64'), ('a space in front', b' 10 8 64'), ('a space at the end', b'10 8 64 '),
        ('a tab', b'10\t8 64'), ('a carriage return', b'10 8 64\r'), ('no budgets', b''), ('one budget', b'10'), ('two budgets', b'10 8'),
        ('four budgets', b'10 8 64 1'), ('a space only', b' '), ('two spaces only', b'  '), ('a missing number', b'10  64'),
        ('a leading zero in the steps', b'010 8 64'), ('a leading zero in the names', b'10 08 64'), ('a leading zero in the cells', b'10 8 064'),
        ('two zeros', b'00 8 64'), ('eight digits of steps', b'10000000 8 64'), ('eight digits of names', b'10 10000000 64'),
        ('eight digits of cells', b'10 8 10000000'), ('eight zeros', b'10 8 00000000'), ('letters', b'ten 8 64'), ('a letter behind a number', b'10 8 64r'),
        ('a letter within a number', b'10 8x 64'), ('a minus', b'-10 8 64'), ('a plus', b'+10 8 64'), ('a point', b'10. 8 64'), ('commas', b'10,8,64'),
        ('a byte below the digits', b'10 8 6/'), ('a byte above the digits', b'10 8 6:'), ('a byte over 127', b'10 8 6\xb4'),
        ('ten digits', b'4294967306 8 64'),
    ):
        yield name, budgets + b'\n' + CALL, OTHER


def budgets():
    """Budgets at their limits and past them."""
    yield 'zero steps', b'0 8 64\n' + CALL, '22 0 0 0 0 0\n'
    yield 'one step', b'1 8 64\n' + CALL, '22 0 0 1 0 0\n'
    yield 'two steps', b'2 8 64\n' + CALL, FIVE
    yield 'zero names', b'10 0 64\n' + CALL, '23 0 0 1 0 0\n'
    yield 'one name', b'10 1 64\n' + CALL, FIVE
    yield 'zero cells', b'10 8 0\n' + CALL, FIVE
    yield 'zero budgets', b'0 0 0\n' + CALL, '22 0 0 0 0 0\n'
    yield 'zero cells and a pair', b'10 8 0\nmain=[id,id];\n5\n', '24 0 0 4 0 0\n'
    yield 'one cell and a pair', b'10 8 1\nmain=[id,id];\n5\n', '24 0 0 4 0 0\n'
    yield 'two cells and a pair', b'10 8 2\nmain=[id,id];\n5\n', '20 0 0 4 2 5\n<5,5>\n'
    yield 'zero cells and an object of one', b'10 8 0\nmain=id;\n<5>\n', '13 0 0 0 0 0\n'
    yield 'the most of each', b'1000000 256 4096\n' + CALL, FIVE
    yield 'steps over the limit', b'1000001 256 4096\n' + CALL, '3 0 0 0 0 0\n'
    yield 'names over the limit', b'1000000 257 4096\n' + CALL, '4 0 0 0 0 0\n'
    yield 'cells over the limit', b'1000000 256 4097\n' + CALL, '5 0 0 0 0 0\n'
    yield 'seven digits of steps', b'9999999 256 4096\n' + CALL, '3 0 0 0 0 0\n'
    yield 'seven digits of names', b'1000000 9999999 4096\n' + CALL, '4 0 0 0 0 0\n'
    yield 'seven digits of cells', b'1000000 256 9999999\n' + CALL, '5 0 0 0 0 0\n'
    yield 'all over the limit', b'1000001 257 4097\n' + CALL, '3 0 0 0 0 0\n'
    yield 'names and cells over the limit', b'1000000 257 4097\n' + CALL, '4 0 0 0 0 0\n'
    yield 'over the limit and not in the grammar', b'1000001 8 64\n;\n;\n', '3 0 0 0 0 0\n'


def long_object(size):
    """An object text of so many bytes, an odd number: two bytes to each place, and one more."""
    return b'<' + b','.join([b'7'] * ((size - 1) // 2)) + b'>'


def lengths():
    """Inputs and texts at their limits."""
    def filled(size, program):
        """An input of so many bytes: behind `1 1 1` and the program, the object takes what is left."""
        rest = size - 6 - len(program) - 2
        return b'1 1 1\n' + program + b'\n5' + b' ' * (rest - 1) + b'\n'

    program = b'main=id;' + b' ' * 8184
    yield 'a program of 8,192 bytes', b'9 1 0\n' + program + b'\n5\n', FIVE
    yield 'a program of 8,193 bytes', b'9 1 0\n' + program + b' \n5\n', '1 0 0 0 0 0\n'
    yield 'an object of 16,384 bytes', b'9 1 0\nmain=id;\n5' + b' ' * 16383 + b'\n', FIVE
    yield 'an object of 16,385 bytes', b'9 1 0\nmain=id;\n5' + b' ' * 16384 + b'\n', '2 0 0 0 0 0\n'
    yield 'both too long', b'9 1 0\n' + program + b' \n5' + b' ' * 16384 + b'\n', '1 0 0 0 0 0\n'
    yield 'an object of 8,191 places', b'9 1 4096\nmain=length;\n' + long_object(16383) + b'\n', '13 0 0 0 0 0\n'
    yield 'more than 4,096 bytes', b'9 1 4096\nmain=length;\n' + long_object(8001) + b'\n', '20 0 0 2 4000 4\n4000\n'
    yield 'more than 4,096 bytes written', b'9 1 4096\nmain=id;\n' + long_object(8001) + b'\n', '20 0 0 2 4000 8001\n%s\n' % long_object(8001).decode()
    yield '24,584 bytes, as many as a call may have', filled(6 + 8192 + 16384 + 2, program), '22 0 0 1 0 0\n'
    yield '24,585 bytes, and an object too long', filled(6 + 8192 + 16384 + 3, program), '2 0 0 0 0 0\n'
    yield '25,000 bytes, and an object too long', filled(25000, program), '2 0 0 0 0 0\n'
    yield '25,000 bytes, a program too long', filled(25000, b' ' * 12000), '1 0 0 0 0 0\n'
    yield '25,001 bytes', filled(25001, program), OTHER
    yield '25,000 bytes of a call, and one more', filled(25000, program) + b'\n', OTHER
    yield '25,000 bytes in two lines', b'1 1 1\n' + b' ' * 24993 + b'\n', OTHER


def nested(n, text):
    return b'<' * n + text + b'>' * n


def answers():
    """A call for each number of the answer table that a run can have, with place and text where it has them."""
    def call(program, object_, budgets_=b'1000 8 4096'):
        return budgets_ + b'\n' + program + b'\n' + object_ + b'\n'

    yield '6 at the start of the program', call(b'=id;', b'5'), '6 0 1 0 0 0\n'
    yield '6 at the end of the program', call(b'main=id', b'5'), '6 7 1 0 0 0\n'
    yield '6 in the object', call(b'main=id;', b'<5,>'), '6 3 2 0 0 0\n'
    yield '6 for no object', call(b'main=id;', b''), '6 0 2 0 0 0\n'
    yield '6 for a word in capitals and small letters', call(b'main=iD;', b'5'), '6 5 1 0 0 0\n'
    yield '6 for a carriage return', call(b'main=id;', b'5\r'), '6 1 2 0 0 0\n'
    yield '6 in program and object', call(b'main=;', b';'), '6 5 1 0 0 0\n'
    yield '7 in the program', call(b'main=' + b'(' * 32 + b'[id]' + b')' * 32 + b';', b'5'), '7 37 1 0 0 0\n'
    yield '32 marks in the program', call(b'main=' + b'(' * 31 + b'[id]' + b')' * 31 + b';', b'5'), '20 0 0 3 1 3\n<5>\n'
    yield '7 in the object', call(b'main=id;', nested(33, b'')), '7 32 2 0 0 0\n'
    yield '32 marks in the object', call(b'main=id;', nested(32, b'')), '20 0 0 2 31 64\n%s\n' % nested(32, b'').decode()
    yield '8 in the program', call(b'main=256;', b'5'), '8 5 1 0 0 0\n'
    yield '8 in the object', call(b'main=id;', b'<-0>'), '8 1 2 0 0 0\n'
    yield '8 for a number over the range', call(b'main=id;', b'2147483648'), '8 0 2 0 0 0\n'
    yield '9 in the program', call(b'main=abcdefghijklm;', b'5'), '9 5 1 0 0 0\n'
    yield '9 in the object', call(b'main=id;', b'<ABCDEFGHIJKLM>'), '9 1 2 0 0 0\n'
    yield '10 for forms', call(b'main=' + b'.'.join([b'id'] * 2048) + b';', b'5'), '10 0 1 0 0 0\n'
    yield '2,048 forms', call(b'main=' + b'.'.join([b'id'] * 2047) + b';', b'5', b'9999 8 0'), '20 0 0 2049 0 1\n5\n'
    names = [b'n%d=id;' % i for i in range(129)]
    yield '10 for definitions', call(b''.join(names), b'5'), '10 0 1 0 0 0\n'
    yield '128 definitions', call(b''.join(names[:128]), b'5'), '21 0 0 1 0 0\n'
    yield '11', call(b'a=id;b=id;b=id;a=id;', b'5'), '11 10 1 0 0 0\n'
    yield '11 before the object', call(b'a=id;a=id;', b';'), '11 5 1 0 0 0\n'
    yield '13', call(b'main=%<1,2>;', b'<3>', b'9 9 2'), '13 0 0 0 0 0\n'
    yield 'just enough cells', call(b'main=%<1,2>;', b'<3>', b'9 9 3'), '20 0 0 2 3 5\n<1,2>\n'
    yield '20', call(b'main=/add.@mul.trans;', b'<<2,3>,<5,7>>', b'100 8 64'), '20 0 0 8 16 2\n31\n'
    yield '20 with a text of 12 bytes', call(b'main=1;', b'<ABCDEFGHIJKL>'), '20 0 0 2 1 12\nABCDEFGHIJKL\n'
    yield '21', call(b'main=1.[id,zap];', b'5'), '21 0 0 5 0 0\n'
    yield '21 for an undefined main', call(b'', b'A'), '21 0 0 1 0 0\n'
    yield '22', call(b'main=main;', b'5', b'7 9 0'), '22 0 0 7 0 0\n'
    yield '22 after 1,000,000 steps', call(b'main=(%T?id);', b'5', b'1000000 1 0'), '22 0 0 1000000 0 0\n'
    yield '23', call(b'main=main;', b'5', b'9 7 0'), '23 0 0 8 0 0\n'
    yield '23 after 256 names', call(b'main=main;', b'5', b'1000000 256 0'), '23 0 0 257 0 0\n'
    yield '24', call(b'main=main.[id];', b'5', b'999 256 7'), '24 0 0 32 7 0\n'
    # each of twelve steps doubles the text and adds two marks and a comma, from one byte on: 2^12 * 4 - 3 = 16,381 bytes
    twelve = b'main=' + b'.'.join([b'[id,id]'] * 12) + b';'
    text = '5'
    for _ in range(12):
        text = '<%s,%s>' % (text, text)
    yield '16,381 bytes written', call(twelve, b'5'), '20 0 0 38 24 16381\n%s\n' % text
    yield '25', call(twelve, b'55'), '25 0 0 38 24 0\n'
    # n texts of so many bytes, n - 1 commas and two marks: 127 * 128 + 126 + 2, and 128 * 127 + 127 + 2
    many = lambda n: b'main=[' + b','.join([b'id'] * n) + b'];'
    row = '<77,' + ','.join(['7'] * 62) + '>'
    yield '16,384 bytes written', call(many(127), row.encode()), '20 0 0 129 190 16384\n<%s>\n' % ','.join([row] * 127)
    yield '25 for 16,385 bytes', call(many(128), long_object(127)), '25 0 0 130 191 0\n'
    yield '26', call(b'main=' + b'.'.join([b'[id]'] * 32) + b';', b'<>'), '26 0 0 66 32 0\n'
    yield '32 marks written', call(b'main=' + b'.'.join([b'[id]'] * 31) + b';', b'<>'), '20 0 0 64 31 64\n%s\n' % nested(32, b'').decode()


def inputs():
    for group in (shapes, budgets, lengths, answers):
        for name, given, reply in group():
            yield name, given, reply.encode()


def write_folder(folder):
    os.makedirs(folder, exist_ok=True)
    for number, (name, given, reply) in enumerate(inputs()):
        path = os.path.join(folder, '%03d %s' % (number, name.replace(',', '')))
        with open(path + '.in', 'wb') as out:
            out.write(given)
        with open(path + '.expected', 'wb') as out:
            out.write(reply)


def main():
    words = sys.argv[1:]
    out = sys.stdout.buffer
    if len(words) == 2 and words[0] == 'folder':
        write_folder(words[1])
    elif words == ['cases']:
        for name, given, reply in inputs():
            out.write(struct.pack('<2H', len(name), len(given)) + name.encode() + given)
    elif words == ['replies']:
        for name, given, reply in inputs():
            out.write(name.encode() + b'\n' + reply)
    else:
        sys.exit(__doc__)


main()
