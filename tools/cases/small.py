"""Small books by hand."""
from gen import *

def plain(s): return Book(s if isinstance(s, bytes) else s.encode())
def lay(b):
    o, at = b'', 0
    for n in b.nodes:
        o += b.text[at:n.start]
        n.off = len(o) + n.pad()
        o += b'\n' * n.pad() + bytes([0xee, 0x80, 0x81 + n.cls]) + b'\n' * n.pad()
        at = n.end
    b.norm = o + b.text[at:]
    return b
def book(text, strings=(), contents=(), segments=(), nodes=(), **more):
    b = plain(text)
    b.layers = [Layer([s if isinstance(s, bytes) else s.encode() for s in strings], contents, segments)]
    b.nodes = list(nodes)
    lay(b)
    for k, v in more.items(): setattr(b, k, v)
    return b
def inline(a, e, kind, tag=0, words=(), plain=(0, 0)): return Node(0, 0, a, e, 0, Body(kind, tag, plain, words))
def leaf(a, e, kind, tag=0, words=(), plain=(0, 0)): return Node(1, 0, a, e, 0, Body(kind, tag, plain, words))
def block(cls, a, e, inline=0, plain=(0, 0)): return Node(cls, inline, a, e, 0, Body(0, 0, plain))
P = lambda i: (0, i, 0)
# document 02, wish 5: a diagnostic of no width, and a text with diagnostics
def mark(at, plain=0, kind=0, rank=0): return kind, rank, at, at, plain
def marked(text, *diags): return book(text, diags=list(diags))
# document 02, wish 7: nine strings whose first slot of 256 is 100; and nine of slot 250, the last of which lie round the table's end
SLOT_100 = 'kiga koru hutu mini muku yawo yume gota papa'.split()
SLOT_250 = 'kohu sayo suki soke nita habi hunu yuge dasi'.split()
assert {slot(s.encode()) for s in SLOT_100} == {100} and {slot(s.encode()) for s in SLOT_250} == {250}
abc = 'aa\n\nbb\n\ncc'
ruby = lambda: book('xb\n\n', ['x', 'b'], [P(0), P(1)], [], [inline(0, 2, 1, 0, [0, 1, 1, 1])])

