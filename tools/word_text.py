#!/usr/bin/env python3
"""The text that the program words steps through, and what it has to print of it, by the rules of document 01 alone.

    tools/word_text.py text > crates/words/stdin
    tools/word_text.py places > crates/words/stdout

The text has short and long words, numbers with and without a minus, every mark, bytes that are none, and places of one to five
digits. It is longer than the 16,384 bytes that words reads, and the last word that is read is cut there.
"""
import re
import sys

READ = 16384
# blanks pass; then a run of letters and digits (with a minus directly before a digit), `->`, or one other byte
WORD = re.compile(rb'[ \n]*(-?[0-9][0-9A-Za-z]*|[A-Za-z][0-9A-Za-z]*|->|[^ \n])', re.DOTALL)


def text():
    first = b'main=(null.tl->1;last.tl);\n  <-12,A>--5 ->x'
    words = [b'abcdefghi', b'abcdefghij', b'ABCDEFGHIJKL', b'abcdefghijklm', b'-2147483648', b'12345678901r', b'-5ab', b'a-5', b'-A', b'- 5',
             b'->->', b'-->', b'- >', b'x->y', b'\t\r\0\x80\xff', b'[]{}()<>/@%?=;,.', b'~!"#$&*+:\\^_`|\'', b'w' * 99, b'W' * 100, b'9' * 999, b'z9' * 500]
    body = first + b'\n' + b' '.join(words) + b'\n\n  ' + b'.'.join([b'tl'] * 300) + b' '
    body += b' ' * (READ - 7 - len(body))
    return body + b' abc defghi jkl'


def places():
    read = text()[:READ]
    at = 0
    while True:
        found = WORD.match(read, at)
        if not found:
            yield len(read), 0
            return
        yield found.start(1), len(found.group(1))
        at = found.end()


def main():
    if sys.argv[1:] == ['text']:
        sys.stdout.buffer.write(text())
    elif sys.argv[1:] == ['places']:
        for place, length in places():
            print(place, length)
    else:
        sys.exit(__doc__)


main()
