#!/usr/bin/env python3
"""Turns outside vectors (one JSON object a line, texts in hex) into the binary files that the programs read.

    tools/convert_vectors.py runs FILE.jsonl > crates/vectors/data/run.cases
    tools/convert_vectors.py wrong FILE.jsonl > crates/vectors/data/wrong.cases
    tools/convert_vectors.py texts DIR > crates/reread/data/texts.cases
    tools/convert_vectors.py short > crates/reread/data/short.cases

A run case is thirteen 32-bit numbers, the lowest byte first (lengths of program, object and text; steps, names, cells; the
output's length; the six numbers of the answer), then program, object and text. In front of a wrong case stand three numbers
more: the table (0 none, 1 output, 2 forms, 3 cells), the place there and the value that is expected at it. A text case is two
numbers (1 program or 2 object; the length), then the text. A short case has a third number, how many bytes may be written.
"""
import json
import struct
import sys


def numbers(*ns):
    return struct.pack('<%dI' % len(ns), *ns)


def run_case(case, answer, text):
    program = bytes.fromhex(case['program'])
    object_ = bytes.fromhex(case['object'])
    head = numbers(len(program), len(object_), len(text), case['steps'], case['names'], case['cells'],
                   case['out_len'], *answer)
    return head + program + object_ + text


def run_cases(path):
    for line in open(path):
        case = json.loads(line)
        yield run_case(case, case['answer'], bytes.fromhex(case['output'] or ''))


OUTPUT, FORMS, CELLS = 1, 2, 3


def changed(case, answer=None, text=None, entry=(0, 0, 0)):
    """The case, with another answer, text or entry expected."""
    right = bytes.fromhex(case['output'] or '')
    return numbers(*entry) + run_case(case, answer or case['answer'], right if text is None else text)


def wrong_numbers(done, refused, untouched):
    """Each of the six numbers, in its low bits and above them."""
    for i in range(6):
        for more in (1, 65536):
            answer = list(done['answer'])
            answer[i] += more
            yield changed(done, answer)
    number, place, text = refused['answer'][:3]
    yield changed(refused, [number, place + 1, text, 0, 0, 0])
    yield changed(refused, [number, place, 3 - text, 0, 0, 0])
    yield changed(untouched, [5, 0, 0, 0, 0, 0])


def wrong_bytes(done):
    """The text's first byte, its last, and bytes behind it: within the room, at its end and past it."""
    text = bytes.fromhex(done['output'])
    yield changed(done, text=bytes([text[0] + 1]) + text[1:])
    yield changed(done, text=text[:-1] + bytes([text[-1] + 1]))
    yield changed(done, text=text[:-1])
    yield changed(done, text=text + b'0')
    for place in (0, len(text) - 1, len(text), done['out_len'] - 1, done['out_len'], 19999):
        yield changed(done, entry=(OUTPUT, place, 0))


def wrong_entries(case, other):
    """A byte of the output, and the first and last entries of the form table, of the cells lent and of those behind them."""
    lent = 4 * case['cells']
    yield changed(case, entry=(OUTPUT, 9, 57))
    for table, places in ((FORMS, (0, 1, 8191)), (CELLS, (0, 1, lent - 1))):
        for place in places:
            yield changed(case, entry=(table, place, other))
    for place in (lent, 16399):
        yield changed(case, entry=(CELLS, place, 0))


def wrong_cases(path):
    """Cases that are wrong in one thing each, between two that are right: of a run that is done, of a refusal that leaves the
    tables zero, and of one that touches nothing."""
    cases = [json.loads(line) for line in open(path)]

    def first(fits):
        return next(c for c in cases if len(c['program']) < 200 and fits(c, c['answer']))

    done = first(lambda c, a: a[0] == 20 and a[5] > 4 and a[4] > 0 and 4 < c['cells'] < 4096 and c['out_len'] < 16384)
    refused = first(lambda c, a: a[0] == 6 and a[1] > 0 and 4 < c['cells'] < 4096)
    untouched = first(lambda c, a: a[0] == 3 and 0 < c['cells'] <= 4096)
    yield changed(done)
    yield from wrong_numbers(done, refused, untouched)
    yield from wrong_bytes(done)
    for case, other in ((done, 1), (refused, 7), (untouched, 0)):
        yield from wrong_entries(case, other)
    yield changed(refused)


def made_texts():
    """Texts at and just past each limit of document 01."""
    deep = lambda n, inner: b'f=' + b'/' * n + inner + b';'
    yield 1, b''
    yield 1, b' \n'
    yield 2, b''
    for n in (31, 32, 33):
        yield 1, deep(n, b'id')
        yield 2, b'<' * n + b'>' * n
    for n in (2048, 2049):
        # a chain of n - 1 parts is n forms
        yield 1, b'f=' + b'.'.join([b'tl'] * (n - 1)) + b';'
    for n in (128, 129):
        yield 1, b''.join(b'n%d=id;' % i for i in range(n))
    yield 1, b''.join(b'n%d=id;' % i for i in range(128)) + b'n5=id;'
    yield 1, b'a=id;b=tl;b=id;a=id;'
    long_program = b'main=%<' + b','.join([b'7'] * 4091) + b'>;'
    yield 1, long_program + b' ' * (8192 - len(long_program))
    long_object = b'<' + b','.join([b'1'] * 8191) + b'>'
    yield 2, long_object + b' ' * (16384 - len(long_object))
    yield 1, long_program + b' ' * (8193 - len(long_program))
    yield 2, long_object + b' ' * (16385 - len(long_object))
    yield 2, b'<' + b',' * 8190
    yield 2, b'ABCDEFGHIJKL'
    yield 2, b'ABCDEFGHIJKLM'
    for word in (b'0', b'-0', b'007', b'2147483647', b'2147483648', b'-2147483648', b'-2147483649', b'12r', b'-5r', b'- 5'):
        yield 2, word
    for word in (b'0', b'1', b'255', b'256', b'255r', b'256r', b'01', b'1R', b'-1', b'A', b'abcdefghijklm'):
        yield 1, b'f=' + word + b';'


def short_cases():
    """Texts with just enough room for what is written, and with one byte less; the longest text that is looked at; and at
    the end a text that is cut short, of which nothing may be printed."""
    for kind, text, written in (
        (1, b' main = ( id . tl ) ; ', b'main=id.tl;'),
        (1, b'abcdefghijkl=(null.(tl)->[1,2r];{add,-7});', b'abcdefghijkl=(null.tl->[1,2r];{add,-7});'),
        (1, b'a=%<A,<1,-2>>;b=/add.@(mul.rotl);c=(a?b);', b'a=%<A,<1,-2>>;b=/add.@(mul.rotl);c=(a?b);'),
        (2, b' < A , <> , -2147483648 > ', b'<A,<>,-2147483648>'),
        (2, b'ABCDEFGHIJKL', b'ABCDEFGHIJKL'),
        (2, b' 7 ', b'7'),
    ):
        for room in (len(written), len(written) - 1, 1, 0):
            yield kind, room, text
    yield 1, 0, b''
    yield 1, 0, b' \n'
    yield 2, 16384, b'<' + b','.join([b'1'] * 8191) + b'>'
    yield 2, 16382, b'<' + b','.join([b'1'] * 8191) + b'>'
    yield 2, 0, b'007'
    yield 1, 16384, b' ' * 65536
    yield 2, 16384, b'<>'


def text_cases(folder):
    seen = {}
    for name, kinds in (('run', (('program', 1), ('object', 2))), ('law', (('program', 1),)), ('simplify', (('program', 1),))):
        for line in open('%s/%s.jsonl' % (folder, name)):
            case = json.loads(line)
            number, place, text = case['answer'][:3]
            for key, kind in kinds:
                if number in (6, 7, 8, 9, 10, 11) and text == kind or number == 20:
                    data = bytes.fromhex(case[key])
                    if len(data) <= (8192, 16384)[kind - 1]:
                        seen.setdefault((number, kind), []).append(data)
    for (number, kind), texts in sorted(seen.items()):
        for data in texts[:24]:
            yield kind, data
    yield from made_texts()


def main():
    out = sys.stdout.buffer
    if sys.argv[1:] == ['short']:
        for kind, room, data in short_cases():
            out.write(numbers(kind, len(data), room) + data)
        out.write(numbers(1, 9, 16384) + b'f=id;')
    elif len(sys.argv) != 3 or sys.argv[1] not in ('runs', 'wrong', 'texts'):
        sys.exit(__doc__)
    elif sys.argv[1] == 'runs':
        out.writelines(run_cases(sys.argv[2]))
    elif sys.argv[1] == 'wrong':
        out.writelines(wrong_cases(sys.argv[2]))
    else:
        for kind, data in text_cases(sys.argv[2]):
            out.write(numbers(kind, len(data)) + data)


main()
