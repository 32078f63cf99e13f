"""Cases of wish 2 of document 02, price before the merge: label, what is told (a number; or reread nodes, intern calls, contents and segments
added; None where merge.py alone says it), old book, edit, replacement, reading, and how many work words are lent. Every case of the
merge is one too, but those of wish 7: a price has no probes."""
from small import *
from graft_cases import doubling, nodes_of, quote
import graft_cases, merge_cases
from merge import WORK
from tape_cases import but, node, run, text

MOST, OVER = 1048575, (1048576,) * 3

cases = []
def case(label, told, old, start, end, replacement, reading, words=WORK): cases.append((label, told, old, start, end, replacement, reading, words))

# ---- each number 1 to 17, and those that only 18 refuses
def priced(cases): return [c for c in cases if not c[0].startswith('wish 7: ')]
for label, number, old, start, end, replacement, reading, room in priced(merge_cases.cases): case(label, number if 0 < number < 18 else None, old, start, end, replacement, reading)

def read_last(label, told, reading, old=None, **more):
    """the reading of the last passage, whatever its text"""
    case(label, told, old or plain('aa\n\nb'), 4, 5, reading.text, reading, **more)

# ---- each kind of node, with every tag: which strings are calls, which runs are added. Doubled runs stand below
for label, number, b, *_ in priced(graft_cases.cases):
    if number in (0, 18) and len(b.layers) == 1 and b.nodes and len(b.tape()) < 3000 and 'doubled' not in label: read_last('reading: ' + label, None, b)

# ---- work words: any number
p5 = plain(abc), 4, 5, b'x'
for words in (0, 1, WORK - 1): case('P5, %d work words' % words, (1, 2, 2, 0), *p5, ruby(), words=words)
case('12, 0 work words', 12, *p5, plain('xc\n\n'), words=0)
case('15, 0 work words', 15, merge_cases.formats(8), 4, 5, b'x', ruby(), words=0)

# ---- no nodes: nothing is grafted, whatever the pools hold
read_last('no nodes, full pools', (0, 0, 0, 0), book('x', 'ab', [P(0), run(0, 1)], [text(1)]))
read_last('no text left', (0, 0, 0, 0), plain(''))

# ---- the length: both new texts and the strings of every old layer; the reading's own are not in it
def old_layers(n): return but(book('aa\n\nb'), layers=[Layer([b's' * (i + 1)], [P(i)], [text(i)]) for i in range(n)])
read_last('old strings in 31 layers', (1, 1, 1, 0), quote([0], ['q' * 300]), old_layers(31))
read_last('old strings in 32 layers, no nodes', (0, 0, 0, 0), book('xyz', ['q' * 300]), old_layers(32))
read_last('17, 32 layers', 17, quote([0], 'q'), old_layers(32))
read_last('images of seven bytes', (3, 0, 0, 0), book('xyz', nodes=[leaf(0, 1, 5), inline(1, 2, 4), leaf(2, 3, 6)]), book('aa\n\nb', nodes=[leaf(0, 1, 5), leaf(4, 5, 7)]))

# ---- every call counts, found in the cache, in the table or new
read_last('one string eight times', (1, 8, 8, 0), quote([0] * 8, 'a'))
# 40 AngleQuotes over one run of two long strings in turn, each a new one
read_last('4000 strings', (40, 4000, 4000, 0), nodes_of(*[(14, 0, [0, 100])] * 40, strings=['a' * 65, 'b' * 65], contents=[P(0), P(1)] * 50, segments=[]))

# ---- few records that stand for many. Doubled n times: 2^n calls, and 2^(n + 1) - 1 contents and as many segments
read_last('18 levels, doubled', (1, 2**18, 2**19 - 1, 2**19 - 1), doubling(18))
read_last('19 levels, doubled: 1048575 contents and segments', (1, 2**19, MOST, MOST), doubling(19))
def with_node(b, *bodies):
    """another node behind the first, over one byte more"""
    more = [inline(1 + i, 2 + i, *body) for i, body in enumerate(bodies)]
    b.text, b.nodes = b'n' * (1 + len(bodies)), b.nodes + more
    return lay(b)
read_last('19 levels, doubled, and an empty range', (2, 2**19, MOST, MOST), with_node(doubling(19), (14, 0, [0, 0])))
read_last('19 levels, doubled, and a string', (2, 2**19 + 1, MOST, MOST), with_node(doubling(19), (12, 0, [0])))
read_last('19 levels, doubled, and one more text', (2, *OVER), with_node(doubling(19), (14, 0, [0, 1])))
read_last('19 levels, doubled, and one more segment', (2, *OVER), with_node(doubling(19), (11, 2, [0, NONE, NONE, NONE, 0, 1])))
read_last('20 levels, doubled', (1, *OVER), doubling(20))
read_last('32 levels, doubled: 2^32 texts', (1, *OVER), doubling(32))
read_last('32 levels, doubled, twice: 2^33 texts', (2, *OVER), with_node(doubling(32), (14, 0, [64, 1])))
read_last('32 levels, doubled, 0 work words', (1, *OVER), doubling(32), words=0)

def doubled(levels, leaf, contents=(), segments=()):
    """the same with another leaf, and what it names behind the pools: 2^n leaves, 2^(n + 1) - 1 contents and as many segments around them"""
    b = doubling(levels)
    layer = b.layers[0]
    layer.segments = [leaf] + [but(s, level=s.level + leaf.level) for s in layer.segments[1:]] + list(segments)
    layer.contents += contents
    return b
four_strings = node(1, 11, 0, [0, 0, 0, 0])
def halves(levels): return [(14, 0, [2 * i, 1]) for i in range(levels)]
read_last('calls over, contents and segments not', (1, *OVER), doubled(18, four_strings))
# the same tree of one level less, and each smaller one: 2^18 - 1 Illustrations, and one with three strings
read_last('1048575 calls', (19, MOST, 2**19 - 20, 2**19 - 20), with_node(doubled(17, four_strings), *halves(17), (11, 0, [0, 0, 0, NONE])))
read_last('1048576 calls', (19, *OVER), with_node(doubled(17, four_strings), *halves(17), (11, 0, [0, 0, 0, 0])))
# contents that are runs of no segments; captions of PageBreaks
def empty_runs(n): return doubled(18, node(1, 14, 0, [38, n]), [run(0, 0)] * n)
read_last('1048575 contents, no call', (1, 0, MOST, 2**19 - 1), empty_runs(2))
read_last('contents over, segments and calls not', (1, *OVER), empty_runs(3))
def breaks(n): return doubled(17, node(2, 11, 2, [0, NONE, NONE, NONE, 18, n]), segments=[node(1)] * n)
read_last('1048575 segments', (1, 2**17, 2**18 - 1, MOST), breaks(6))
read_last('segments over, contents and calls not', (1, *OVER), breaks(7))

# ---- how a run is shared: three times in a row, with a string between, and twice with two unlike runs around them; two segments alike in one run
leaves = [text(), Seg(1, 0, Body(3, 2, (0, 0), [0, 0])), Seg(2, 0, Body(13, 1, (0, 0), [0]))]  # one call, two, one
def patterned(levels, *patterns):
    """on each level an AngleQuote for each pattern, which says what it holds: x, y, z the runs of the first, the second and the third one level
    below, X, Y, Z those two levels below, s a string, e an empty run. Patterns that are alike share their contents"""
    contents, segments, count = [], leaves[:len(patterns)], len(patterns)
    def held(p, level):
        if p in 'se': return P(0) if p == 's' else run(0, 0)
        return run(count * max(0, level - 1 - p.isupper()) + 'xyz'.index(p.lower()), 1)
    for level in range(1, levels + 1):
        first = {}
        for pattern in patterns:
            if pattern not in first: first[pattern], contents = len(contents), contents + [held(p, level) for p in pattern]
            segments.append(node(level, 14, 0, [first[pattern], len(pattern)]))
    return nodes_of((14, 0, [len(contents), 1]), strings='x', contents=contents + [run(count * levels, 1)], segments=segments)
read_last('11 levels, three times in a row', (1, 3**11, (3**12 - 1) // 2, (3**12 - 1) // 2), patterned(11, 'xxx'))
read_last('17 levels, a string between', (1, 2**18 - 1, 3 * 2**17 - 2, 2**18 - 1), patterned(17, 'xsx'))
read_last('17 levels, unlike runs around', (1, 2**17, 2**19 - 3, 2**18 - 1), patterned(17, 'exxe'))
read_last('32 levels, a string between', (1, *OVER), patterned(32, 'xsx'))
def alike(levels):
    segments = [text(), text()] + [node(level, 14, 0, [level - 1, 1]) for level in range(1, levels + 1) for _ in 'ab']
    return nodes_of((14, 0, [levels, 1]), strings='x', contents=[run(2 * i, 2) for i in range(levels + 1)], segments=segments)
read_last('16 levels, two segments alike', (1, 2**17, 2**17 - 1, 2**18 - 2), alike(16))
read_last('31 levels, two segments alike', (1, *OVER), alike(31))

# ---- runs in turn, so that none stands beside itself. Two leaves have three calls, three have four
read_last('18 levels, two runs in turn, from two nodes: 1048574 contents and segments', (2, 3 * 2**18, MOST - 1, MOST - 1), with_node(patterned(18, 'xy', 'yx'), (14, 0, [72, 1])))
read_last('19 levels, two runs in turn: 1048575 contents and segments', (1, 3 * 2**18, MOST, MOST), patterned(19, 'xy', 'yx'))
read_last('19 levels, two runs in turn, and one more text', (2, *OVER), with_node(patterned(19, 'xy', 'xy'), (14, 0, [0, 1])))
read_last('32 levels, two runs in turn: 2^32 leaves', (1, *OVER), patterned(32, 'xy', 'xy'))
read_last('12 levels, three runs in turn', (1, 4 * 3**11, (3**13 - 1) // 2, (3**13 - 1) // 2), patterned(12, 'xyz', 'yzx', 'zxy'))
read_last('13 levels, three runs in turn', (1, *OVER), patterned(13, 'xyz', 'xyz', 'xyz'))
read_last('6 levels, three unlike runs in turn, one and two levels below', None, patterned(6, 'xyX', 'zsYx', 'Zey'))

# ---- two fields of one body: a Ruby whose base and text are the same run
def two_fields(levels):
    segments = [text()] + [node(i + 1, 1, 0, [i, 1, i, 1]) for i in range(levels)]
    return nodes_of((14, 0, [levels, 1]), strings='x', contents=[run(i, 1) for i in range(levels + 1)], segments=segments)
read_last('19 levels, two fields: 1048575 contents and segments', (1, 2**19, MOST, MOST), two_fields(19))
read_last('19 levels, two fields, and one more text', (2, *OVER), with_node(two_fields(19), (14, 0, [0, 1])))
read_last('32 levels, two fields, 0 work words', (1, *OVER), two_fields(32), words=0)

# ---- paths of unlike length to one segment: each AngleQuote holds the run one level below and the one two levels below, or both segments in one
# run, so that each run overlaps the next
read_last('32 levels, paths of unlike length', (1, *OVER), patterned(32, 'xX'))
def stepped(n):
    """so many segments, by nodes that each stand for as many as are left; content i stands for 1, 3, 6, 11, .. of them"""
    adds, bodies = [1, 3], []
    while adds[-1] < n: adds.append(2 + adds[-2] + adds[-1])
    for i in reversed(range(len(adds))):
        while adds[i] <= n: bodies, n = bodies + [(14, 0, [i, 1])], n - adds[i]
    segments = [text()] + [node(i + 1, 14, 0, [i, 1]) for i in range(len(adds))]
    return nodes_of(*bodies, strings='x', contents=[run(0, 1)] + [run(i, 2) for i in range(len(adds))], segments=segments)
read_last('7000 segments, paths of unlike length', (3, 2676, 4327, 7000), stepped(7000))
read_last('1048575 segments, paths of unlike length', (9, 400527, 648057, MOST), stepped(MOST))
read_last('1048576 segments, paths of unlike length', (10, *OVER), stepped(MOST + 1))

# ---- one segment of three strings from five nodes: alone and in runs that begin or end as others do, at unlike depths, by contents and by captions;
# ranges of contents and ranges of segments that have the same two words
contents = [run(1, 1), run(1, 2), run(0, 2), run(4, 1), run(5, 2), run(4, 3), run(7, 1), P(2)]
segments = [text(), node(1, 11, 0, [0, 1, 2, NONE]), node(1), text(1), node(2, 14, 0, [0, 2]), node(3, 1, 0, [0, 1, 1, 3]),
    node(4, 11, 2, [0, NONE, NONE, 1, 1, 4]), node(5, 15, 0, [4, 2, 0, 3])]
bodies = [(14, 0, [6, 2]), (1, 0, [0, 2, 1, 1]), (11, 2, [2, NONE, 1, NONE, 1, 2]), (15, 0, [1, 2, 1, 6]), (11, 2, [0, NONE, NONE, NONE, 1, 1])]
for order, label in ((1, 'the deepest first'), (-1, 'the deepest last')):
    read_last('one segment from five nodes, ' + label, None, nodes_of(*bodies[::order], strings='abc', contents=contents, segments=segments))
