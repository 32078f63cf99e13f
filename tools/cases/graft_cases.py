"""Cases of grafting, sections 2 and 5 and number 18: label, the number (0: accepted), source, room for the layer and nodes, room for the
strings, and how many strings, contents and segments are below the new layer. Unlike numbers below, and things in the source that no
node names, so that an id or a start that is not moved shows."""
from small import *
from tape_cases import but, empty, nest, node, pools, run, text

TAPE_ROOM, BYTES_ROOM = 65536, 262144  # what the program lends at most
BELOW = (10, 200, 3000)

cases = []
def case(label, b, tape=TAPE_ROOM, strings=BYTES_ROOM, below=BELOW, number=0): cases.append((label, number, b, tape, strings, below))
def refused(number, label, *rest, **more): case('%d %s' % (number, label), *rest, **more, number=number)

def nodes_of(*bodies, cls=0, strings='uabcde', contents=None, segments=None, layers=()):
    """bodies, (kind, tag, words), over one byte each; content 0, segment 0 and string 0 are named by none"""
    contents = [P(0), P(1), P(2), run(1, 1), run(2, 2)] if contents is None else contents
    segments = [text(0), text(3), text(4), text(1)] if segments is None else segments
    b = book('n' * len(bodies), strings, contents, segments, [Node(cls, 0, i, i + 1, 0, Body(k, t, (i, 7), w)) for i, (k, t, w) in enumerate(bodies)])
    b.layers += layers
    return b

# ---- no nodes: the layer is its command alone
case('no nodes, empty book', empty())
case('no nodes, full pools', pools('ab', [P(0), run(0, 1)], [text(1)]))
case('no nodes, room for 1 byte and no strings', empty(), 1, 0)
refused(18, 'no nodes, no room', empty(), 0, 0)

# ---- numbers 1 to 7 of the source; 33 layers and 33 levels
refused(1, 'no layer', but(empty(), layers=[]))
refused(2, 'string', pools([b'\x80']))
refused(3, '33 layers', but(empty(), layers=[Layer() for _ in range(33)]))
refused(4, 'id of an empty pool', pools([], [P(0)]))
refused(5, '33 levels', nest(33))
refused(6, 'diagnostic that ends before it starts', marked('a', (0, 0, 1, 0, 0)))
refused(7, 'normalized text one too long', but(empty(), norm=b'a'))
refused(7, 'before 18', but(empty(), norm=b'a'), 0, 0, (NONE, NONE, NONE))

# ---- each kind, with every tag
case('Ruby', nodes_of((1, 0, [1, 2, 3, 2]), (1, 0, [4, 1, 1, 1])))
case('Format, tags 0 to 15', nodes_of(*((2, t, [1 + t % 3, 2, 5 if t % 4 > 1 else 0]) for t in range(16))))
case('Gaiji, tags 0 to 2', nodes_of((3, 0, [5]), (3, 1, [4]), (3, 2, [3, 2]), (3, 2, [2, NONE])))
case('Line', nodes_of((4, 0, [])))
case('PageBreak', nodes_of((5, 0, [])))
case('SectionBreak', nodes_of((6, 0, [])))
case('BodyEnd', nodes_of((7, 0, [])))
case('ForcedBreak', nodes_of((8, 0, [])))
case('Heading', nodes_of((9, 0, [2, 3])))
case('HeadingHint', nodes_of((10, 0, [5])))
case('Illustration, tags 0 to 2', nodes_of((11, 0, [5, 4, 3, 2]), (11, 1, [1, 2, 3, 4, 5]), (11, 2, [5, 4, 3, 2, 1, 3])))
case('Kaeriten', nodes_of((12, 0, [5])))
case('Directive, tags 0 to 13', nodes_of(*((13, t, [1 + t % 5]) for t in range(14))))
case('AngleQuote', nodes_of((14, 0, [1, 4])))
case('MarginNote', nodes_of((15, 0, [3, 1, 1, 2]), (15, 0, [2, 1, 4, 1])))
case('BlockOpen and BlockClose: no words', book('abcd', 'x', nodes=[block(2, 0, 1, 0, (3, 4)), block(3, 1, 2, 0, (5, 6)), block(2, 2, 3, 1), block(3, 3, 4, 1)]))
case('Ruby and Gaiji of class BlockLeaf', nodes_of((1, 0, [1, 2, 3, 2]), (3, 2, [5, 4]), cls=1))
case('a segment of each tag', nodes_of((11, 2, [1, NONE, NONE, NONE, 1, 4]), segments=[
    text(0), text(1), Seg(1, 0, Body(3, 2, (1, 2), [2, 3])), Seg(2, 0, Body(13, 9, (3, 4), [4])), node(17, 10, 0, [5])]))

# ---- the order of the fields, which the ids show: "mencode before hint", "Format target before payload", "file, number, dimensions, caption, description"
case('hint and mencode both new', nodes_of((3, 2, [1, 2])))
case('hint and mencode of a Gaiji segment', nodes_of((11, 2, [1, NONE, NONE, NONE, 1, 1]), contents=[], segments=[text(0), Seg(1, 0, Body(3, 2, (0, 0), [2, 3]))]))
case('payload and target both new', nodes_of((2, 15, [1, 1, 5])))
case('inner runs before outer', nodes_of((14, 0, [3, 1]), contents=[P(0), run(1, 1), P(2), run(2, 2), P(3)], segments=[text(0), text(4), node(2, 14, 0, [1, 2]), node(1, 9, 0, [2, 1])]))

# ---- missing strings
case('Illustration with all missing', nodes_of((11, 0, [1, NONE, NONE, NONE])))
case('Illustration with one missing', nodes_of((11, 0, [1, NONE, 2, 3]), (11, 1, [4, 5, NONE, 1, 2]), (11, 2, [3, 4, 5, NONE, 1, 1])))
case('mencode missing in a segment', nodes_of((11, 2, [1, NONE, NONE, NONE, 1, 1]), contents=[], segments=[text(0), Seg(1, 0, Body(3, 2, (0, 0), [2, NONE]))]))

# ---- equal strings: one new id for both, also of two layers; the same string at once is a cache hit, else a table hit
def quote(ids, strings, layers=()):
    """an AngleQuote of Plain contents"""
    return nodes_of((14, 0, [0, len(ids)]), strings=strings, contents=[P(i) for i in ids], segments=[], layers=layers)
case('equal strings at once', quote([0, 1], 'aa'))
case('equal strings, another between', quote([0, 1, 2], 'aba'))
case('equal strings of two layers', quote([0, 1, 2], 'ab', [Layer([b'a'])]))
case('the empty string', quote([0, 1, 0, 1], ['', 'a']))
case('P2: "" and one byte 0', quote([0, 1], ['', '\0']))
case('strings that share slots, also around the end of the table', quote([*range(len(COLLIDE))] * 2, COLLIDE))

# ---- empty ranges: they start where the pool ends
case('empty ranges', nodes_of((14, 0, [0, 0]), (14, 0, [5, 0]), (1, 0, [2, 0, 1, 1]), (15, 0, [1, 2, 0, 0])))
case('empty runs of segments', nodes_of((14, 0, [0, 2]), (11, 2, [1, NONE, NONE, NONE, 3, 0]), (11, 2, [1, NONE, NONE, NONE, 1, 1]), contents=[run(4, 0), run(0, 0)]))

# ---- shared runs: named twice, grafted twice
case('contents named twice', nodes_of((14, 0, [1, 2]), (14, 0, [1, 2])))
case('contents named twice by one node', nodes_of((1, 0, [3, 1, 3, 1])))
case('segments named by two contents', nodes_of((14, 0, [0, 2]), contents=[run(1, 2), run(1, 2)]))
case('contents that overlap', nodes_of((14, 0, [1, 3]), (14, 0, [2, 3])))

# ---- section 2: 64 against 65 bytes, and growth, tested before probing also for a string that is there
case('64 bytes', quote([0, 1, 0, 0], ['a' * 64, 'b']))
case('65 bytes', quote([0, 1, 0, 0], ['a' * 65, 'b']))
hexes = lambda n: ['%02x' % i for i in range(n)]
case('223 strings, then an older one', quote([*range(223), 0], hexes(223)))
case('224 strings, then the last', quote([*range(224), 223], hexes(224)))
case('224 strings, then an older one: 512 slots', quote([*range(224), 0], hexes(224)))

# ---- document 02, wish 7: the ceiling on probing. Of nine strings of one slot the k-th costs k probes, new or found: 90 for each twice, where calls × m is 162
def marks(ids, strings): return nodes_of(*((12, 0, [i]) for i in ids), strings=strings, contents=[], segments=[])
def each_twice(strings):
    """two AngleQuotes over one run"""
    return nodes_of(*[(14, 0, [0, len(strings)])] * 2, strings=strings, contents=[P(i) for i in range(len(strings))], segments=[])
probed = [
    ('nine strings of slot 100, each twice', marks([*range(9)] * 2, SLOT_100)),
    ('nine strings of slot 250, round the end of the table, each twice', each_twice(SLOT_250)),
    ('one string, as many probes as calls', marks([0], 'a')),
    ('one string of 64 bytes, m is 1', marks([0], ['a' * 64])),
    ('one string of 65 bytes, m is 0, no probes', marks([0], ['a' * 65])),
    ('two strings of 65 bytes in turn, m is 0, no probes', marks([0, 1, 0, 1], ['a' * 65, 'b' * 65])),
]
for label, b in probed: case('wish 7: ' + label, b)
case('wish 7: 225 strings, each twice, the moves to 512 slots are no probes', each_twice(hexes(225)))

# ---- one tree of every kind at 32 levels: segment 2 × i, of level i, holds the run of the two of level i - 1, by kinds in turn; beside it
# one of the kinds that hold none
def tower():
    holders = [lambda c, s: (1, 0, [0, 1, c, 1]), lambda c, s: (1, 0, [c, 1, 0, 1]), lambda c, s: (2, 6, [c, 1, 1]), lambda c, s: (9, 0, [c, 1]), lambda c, s: (11, 2, [2, NONE, 1, 0, s, 2]),
               lambda c, s: (14, 0, [c, 1]), lambda c, s: (15, 0, [c, 1, 0, 1]), lambda c, s: (15, 0, [0, 1, c, 1])]
    others = [lambda l: node(l, 3, 2, [1, 3]), lambda l: node(l, 4), lambda l: node(1, 5), lambda l: node(l, 6), lambda l: node(l, 7), lambda l: node(l, 8),
              lambda l: node(l, 10, 0, [4]), lambda l: node(l, 11, 1, [0, NONE, NONE, 2, 3]),
              lambda l: node(l, 12, 0, [5]), lambda l: node(l, 13, 13, [4]), lambda l: text(5), lambda l: Seg(1, 0, Body(3, 0, (l, l), [2])), lambda l: Seg(2, 0, Body(13, 4, (l, l), [0]))]
    contents, segments = [P(1)], [text(0), text(1)]
    for level in range(1, 33):
        contents.append(run(len(segments) - 2, 2))
        segments += [node(level, *holders[level % len(holders)](len(contents) - 1, len(segments) - 2)), others[level % len(others)](level)]
    contents.append(run(len(segments) - 2, 2))
    return nodes_of((14, 0, [33, 1]), (5, 0, []), strings='abcdef', contents=contents, segments=segments)
case('a tree of every kind at 32 levels', tower())
case('32 levels', nest(32))

# ---- 32 layers: the contents and segments of each name strings, segments and contents of others; nodes name the first, the last and those between
def layers32():
    ls = [Layer([b'%c' % (97 + i % 26)], [P((i + 1) % 32), run(2 * ((i + 5) % 32), 2)], [text((i + 7) % 32), Seg(3, 1, Body(9, 0, (i, 0), [2 * ((i + 9) % 32), 1]))]) for i in range(32)]
    b = book('nnnnn', nodes=[inline(0, 1, 14, 0, [0, 2]), inline(1, 2, 15, 0, [62, 2, 31, 1]),
                             leaf(2, 3, 11, 2, [31, 0, 16, 15, 30, 2]), inline(3, 4, 1, 0, [32, 2, 2, 2]), inline(4, 5, 3, 2, [30, 1])])
    return but(b, layers=ls)
case('32 layers, nodes that name several', layers32())
case('a run of the last layer, contents of the first', but(nodes_of((14, 0, [0, 1])), layers=[Layer([], [run(0, 2)]), Layer(), Layer([b'z'], [], [text(0), text(1)]), Layer([b'y'])]))

# ---- 18: pools. Ruby: 2 strings, 3 contents, 3 segments new
def three(): return nodes_of((1, 0, [1, 2, 3, 1]), contents=[P(0), P(1), run(1, 3), run(0, 0)], segments=[text(0), text(1), text(2), text(1)])
case('strings up to 1048575', three(), below=(1048573, 0, 0))
refused(18, 'strings 1048576', three(), below=(1048574, 0, 0))
case('contents up to 1048575', three(), below=(0, 1048572, 0))
refused(18, 'contents 1048576', three(), below=(0, 1048573, 0))
case('segments up to 1048575', three(), below=(0, 0, 1048572))
refused(18, 'segments 1048576', three(), below=(0, 0, 1048573))
case('1048575 below, no new ones', nodes_of((5, 0, [])), below=(1048575, 1048575, 1048575))
refused(18, '1048576 contents below, no new ones', nodes_of((5, 0, [])), below=(0, 1048576, 0))
refused(18, '4294967295 segments below', nodes_of((5, 0, [])), below=(0, 0, NONE))

# ---- 18: buffers. The new layer of `three`: 1 + 2 × 5 + 3 × 10 + 3 × 37 bytes, a node of 49, strings of 2
case('both buffers full', three(), 201, 2)
refused(18, 'tape one byte short', three(), 200, 2)
refused(18, 'strings one byte short', three(), 201, 1)
refused(18, 'no room for a node', nodes_of((5, 0, [])), 49)
case('room for a node', nodes_of((5, 0, [])), 50, 0)
refused(18, 'no room for the strings', quote([0, 1, 2], ['', 'a' * 65, 'b']), strings=65)
case('room for the strings', quote([0, 1, 2], ['', 'a' * 65, 'b']), strings=66)

# ---- 18: a new layer has at most 3583 strings. Strings over 64 bytes are new each time that the last was another one
def longs(blocks, rest):
    """contents of two long strings in turn, 512 of them a block; an AngleQuote for each block"""
    return nodes_of(*[(14, 0, [0, 512])] * blocks, (14, 0, [0, rest]), strings=['a' * 65, 'b' * 65], contents=[P(i % 2) for i in range(512)], segments=[])
case('3583 strings', longs(6, 511), below=(0, 0, 0))
refused(18, '3584 strings', longs(6, 512), below=(0, 0, 0))

# ---- few records that stand for many: each AngleQuote holds the one below twice
def doubling(levels):
    segments = [text()] + [node(i, 14, 0, [2 * i - 2, 2]) for i in range(1, levels + 1)]
    return nodes_of((14, 0, [2 * levels, 1]), strings='x', contents=[run(i // 2, 1) for i in range(2 * levels + 2)], segments=segments)
case('9 levels, doubled', doubling(9))
refused(18, '10 levels, doubled: past the room', doubling(10))
refused(18, '32 levels, doubled: 4294967296 texts', doubling(32))
