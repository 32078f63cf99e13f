"""The stored input of `inspect`: a book of two layers with a record of every command, a node of every kind and class, every tag of a segment
and an Illustration, missing ids, bytes that are escaped, a mark of no width at the text's end, and an edit whose region is the second of three passages."""
from small import *

text = '漢字ab"c\\\n\ndefghijklmn\topq\n\nend\x7f'
strings = ['漢', '', 'a"b\\c\n', '\x01\x1f\x7f', 'z']
contents = [P(0), P(2), (1, 0, 2), (1, 2, 2)]
segments = [Seg(0, 0, Body(0, 0, (1, 2), [1])), Seg(1, 0, Body(3, 2, (0, 0), [2, NONE])), Seg(2, 0, Body(13, 4, (0, 0), [3])), Seg(3, 1, Body(9, 0, (0, 0), [2, 1]))]
second = Layer([b'new', 'あ'.encode()], [P(5), P(6), (1, 4, 1)], [Seg(3, 2, Body(11, 2, (7, 8), [5, NONE, 6, NONE, 2, 2]))])

def every_kind():
    at = iter(range(13, 40))
    def one(kind, tag=0, words=(), plain=(0, 0)):
        a = next(at)
        return inline(a, a + 1, kind, tag, words, plain)
    nodes = [inline(0, 3, 1, 0, [0, 1, 1, 1]), leaf(3, 6, 5),
             one(2, 7, [1, 1, 4]), one(2, 0, [0, 2]), one(3, 2, [2, 3]), one(3, 0, [0]), one(4), one(6), one(7), one(8), one(9, 0, [2, 1]), one(10, 0, [4]),
             one(11, 0, [5, NONE, NONE, NONE]), one(11, 1, [5, 0, 1, 2, 6]), one(11, 2, [0, NONE, 3, 4, 4, 1]), one(12, 0, [1]), one(13, 13, [3]), one(14, 0, [4, 3], (9, 4294967295))]
    last = text.encode().index(b'end')
    nodes += [block(2, last, last + 1), inline(last + 1, last + 2, 15, 0, [0, 0, 7, 0]), block(3, last + 2, last + 3, 1, (5, 6))]
    b = book(text, strings, contents, segments, nodes)
    b.layers.append(second)
    b.pairs = [(k, k, k + 1, k + 1, k + 2) for k in range(5)]
    b.containers = [(7, 3, 9), (4294967295, 0, 1)]
    b.diags = [(k, 3 * k, k, k + 1, k) for k in range(5)] + [mark(len(b.text), 5, 1, 15)]
    return b

edit = (16, 17, 'é'.encode())
