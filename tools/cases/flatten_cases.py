"""Cases of wish 6 of document 02, flattening: label, what is told (a number; or how many strings, contents and segments the flat book has; None where
flatten.py alone says it), book, room (bytes for the tape, bytes for texts and strings, work words), and a correction (edit, replacement, reading) with
what its merge into the book says and what its merge into the flat book says (a number, 0: accepted). A case without a book (None) has the one that the
case before left: the merged one, where the correction was accepted; else the flat one; else the one that it had."""
import re
from small import *
from graft_cases import BELOW, doubling, hexes, layers32, longs, nodes_of, quote
import graft_cases, merge_cases, tape_cases
from merge import WORK, merge
from merge_cases import around, at_ends, broken, formats, joined, layers, linked, split
from tape_cases import but, empty, nest, node, pools, run, text

# what is lent where nothing else is said, and to large books
ROOM, LARGE = (8192, 4096, WORK), (65536, 16384, WORK)

cases = []
def case(label, told, b, room=ROOM, correction=None, merges=None): cases.append((label, told, b, room, correction, merges))
def exact(label, told, b, tape, data, words=WORK):
    """the room that is just enough, and each of it one short"""
    case(label + ', both buffers full', told, b, (tape, data, words))
    case('18 %s, tape one byte short' % label, 18, b, (tape - 1, data, words))
    if data: case('18 %s, bytes one short' % label, 18, b, (tape, data - 1, words))

# ---- numbers 1 to 7, and all of them before 18
NOTHING = 0, 0, 0
refused = [(n, what, breaks(plain(abc))) for n, what, breaks in broken] + [(3, '33 layers', layers(plain(abc), 33))]
for number, what, b in refused:
    case('%d %s' % (number, what), number, b)
    case('%d before 18, no room at all, %s' % (number, what), number, b, NOTHING)
case('18 no room at all', 18, plain(abc), NOTHING)
for label, number, b, *_ in tape_cases.cases:
    if number and ' before ' in label: case(label, number, b, NOTHING)
# what no node names is dropped, and is tested all the same
case('2 a string that no node names', 2, quote([0], [b'a', b'\x80']))
case('4 a content that no node names', 4, nodes_of((14, 0, [0, 1]), strings='a', contents=[P(0), P(1)], segments=[]))
case('4 a content of an upper layer that no node names', 4, quote([0], 'a', [Layer([], [P(1)])]))
case('4 a range across two layers', 4, nodes_of((14, 0, [0, 2]), strings='a', contents=[P(0)], segments=[], layers=[Layer([], [P(0)])]))
case('5 a segment that no node names', 5, nodes_of((14, 0, [0, 1]), strings='a', contents=[P(0)], segments=[node(0)]))

# ---- one, two and 32 layers
case('one layer', (2, 2, 0), ruby())
case('one layer, whose strings stand in another order', (2, 2, 0), book('xb\n\n', 'bx', [P(0), P(1)], [], [inline(0, 2, 1, 0, [1, 1, 0, 1])]))
case('two layers, the result of P5', (2, 2, 0), tape_cases.result())
case('two layers, a node of each', (2, 2, 0), but(book(abc, 'y', [P(0)], [], [inline(0, 2, 14, 0, [0, 1]), inline(4, 6, 14, 0, [1, 1])]), layers=[Layer([b'y'], [P(0)]), Layer([b'x'], [P(1)])]))
case('two layers, the upper one first', (2, 2, 0), but(book(abc, nodes=[inline(0, 2, 14, 0, [1, 1]), inline(4, 6, 14, 0, [0, 1])]), layers=[Layer([b'y'], [P(0)]), Layer([b'x'], [P(1)])]))
case('two layers, ids into the newer one', (2, 1, 0), but(book(abc, nodes=[inline(0, 2, 14, 0, [0, 1]), inline(4, 6, 12, 0, [0])]), layers=[Layer([b'y'], [P(1)]), Layer([b'x'])]))
case('32 layers, nodes that name several', None, layers32())
def marks32(strings): return but(book('n' * 32, nodes=[inline(i, i + 1, 12, 0, [31 - i], (i, 7)) for i in range(32)]), layers=[Layer([s]) for s in strings])
case('32 layers, a string and a node of each', (32, 0, 0), marks32([b'%c' % (65 + i) for i in range(32)]))
case('32 layers, of which the first has all', (2, 2, 0), layers(ruby(), 32))
case('32 layers, of which the last has all', (1, 1, 1), but(nodes_of((14, 0, [0, 1])), layers=[Layer()] * 31 + [Layer([b'x'], [run(0, 1)], [text(0)])]))
case('32 layers, a string of the first and one of the last', (2, 0, 0), but(book('nn', nodes=[inline(0, 1, 12, 0, [0]), leaf(1, 2, 10, 0, [62])]), layers=[Layer([b'a%d' % i, b'b']) for i in range(32)]))

# ---- no nodes: one empty layer, whatever the pools hold
case('no nodes, empty book', (0, 0, 0), empty())
case('no nodes, a text', (0, 0, 0), plain(abc))
case('no nodes, full pools', (0, 0, 0), pools('ab', [P(0), run(0, 1)], [text(1)]))
case('no nodes, full pools in two layers', (0, 0, 0), pools('ab', [P(0), run(0, 1)], [text(1)], [Layer([b'c'], [P(2), run(1, 1)], [text(0)])]))
case('no nodes, a string in each of 32 layers', (0, 0, 0), but(plain(abc), layers=[Layer([b's' * i]) for i in range(32)]))
case('no nodes, 32 empty layers', (0, 0, 0), layers(plain(abc), 32))
case('no nodes, runs of 32 levels, doubled', (0, 0, 0), but(doubling(32), text=b'', norm=b'', nodes=[]))
case('no nodes, 3584 strings of 65 bytes that are named', (0, 0, 0), but(longs(6, 512), text=b'', norm=b'', nodes=[]))

# ---- only BlockOpen and BlockClose: nothing is named
def blocks(*more): return book('abcd', *more, nodes=[block(2, 0, 1, 0, (3, 4)), block(3, 1, 2, 0, (5, NONE)), block(2, 2, 3, 1), block(3, 3, 4, 1)])
case('only BlockOpen and BlockClose', (0, 0, 0), blocks())
case('only BlockOpen and BlockClose, full pools in two layers', (0, 0, 0), but(blocks(), layers=[Layer([b'a'], [P(0), run(1, 1)], [text(1)]), Layer([b'b'], [P(0)], [text(0)])]))
case('only BlockOpen and BlockClose, 32 layers', (0, 0, 0), layers(blocks(), 32))
case('BlockClose before BlockOpen', (0, 0, 0), layers(book('ab', nodes=[block(3, 0, 1), block(2, 1, 2)]), 2))

# ---- every kind of node, segment and content, shared runs, missing strings, empty ranges, strings of 64 and 65 bytes, growth: the sources of grafting
for label, number, b, *room, below in graft_cases.cases:
    if number == 0 and b.nodes and (*room, below) == (graft_cases.TAPE_ROOM, graft_cases.BYTES_ROOM, BELOW) and not re.match('wish 7|32 layers|22|.*doubled', label): case('grafting: ' + label, None, b)
# and books that pass 1 to 7: images of each length, offsets at both ends of them, marks of no width
for label, number, b, *_ in tape_cases.cases:
    if number == 0: case('passed: ' + label, None, b)

# ---- equal strings of several layers are one; over 64 bytes each that is not the last answer is entered anew
case('one string in 32 layers', (1, 0, 0), marks32([b'a'] * 32))
case('two strings in 32 layers, in turn', (2, 0, 0), marks32([b'a', b'b'] * 16))
case('the empty string in 32 layers', (1, 0, 0), marks32([b''] * 32))
case('one string of 64 bytes in 32 layers', (1, 0, 0), marks32([b'a' * 64] * 32))
case('one string of 65 bytes in 32 layers', (1, 0, 0), marks32([b'a' * 65] * 32))
case('two strings of 64 bytes in 32 layers, in turn', (2, 0, 0), marks32([b'a' * 64, b'b' * 64] * 16))
case('two strings of 65 bytes in 32 layers, in turn', (32, 0, 0), marks32([b'a' * 65, b'b' * 65] * 16))
case('a string of 65 bytes, and short ones between', (32, 0, 0), marks32([b'a' * 65 if i % 2 else hexes(32)[i].encode() for i in range(32)]))
case('strings of one slot, a layer each', (9, 0, 0), but(book('n' * 9, nodes=[inline(i, i + 1, 12, 0, [i]) for i in range(9)]), layers=[Layer([s.encode()]) for s in SLOT_250]))
def spread(n, most):
    """so many strings, in as many layers as it takes with `most` in each, and an AngleQuote for each layer"""
    strings = [[h.encode() for h in hexes(n)[i:i + most]] for i in range(0, n, most)]
    ls = [Layer(s, [P(most * i + j) for j in range(len(s))]) for i, s in enumerate(strings)]
    return but(book('n' * len(ls), nodes=[inline(i, i + 1, 14, 0, [most * i, len(l.strings)]) for i, l in enumerate(ls)]), layers=ls)
case('225 strings in 29 layers, the table grows', (225, 225, 0), spread(225, 8))

# ---- what no node names, between what nodes name
case('unnamed strings, contents and segments', (1, 1, 1), nodes_of((14, 0, [2, 1]), strings='abc', contents=[P(0), run(0, 2), run(1, 1), P(2)], segments=[text(0), text(1), text(2)]))
case('a layer between that no node names', (2, 0, 0), but(book('nn', nodes=[inline(0, 1, 12, 0, [2]), inline(1, 2, 12, 0, [0])]), layers=[Layer([b'a']), Layer([b'b'], [P(0)]), Layer([b'c'])]))
case('named only by what no node names', (1, 0, 0), nodes_of((12, 0, [0]), strings='ab', contents=[run(0, 1)], segments=[text(1)]))

# ---- shared runs unfold
case('9 levels, doubled', (1, 1023, 1023), doubling(9), LARGE)
case('18 9 levels, doubled, past the room', 18, doubling(9))
case('18 32 levels, doubled: 4294967296 texts', 18, doubling(32))
case('18 32 levels, doubled, 32 layers', 18, layers(doubling(32), 32))
# past the limit of a pool, with room enough: 31 contents of 224 contents of 150 contents, 1048575 together, and one more
def fanned():
    segments = [node(2, 14, 0, [31, 224]), node(1, 14, 0, [255, 150])]
    return nodes_of((14, 0, [0, 31]), (14, 0, [404, 1]), strings='ab', contents=[run(0, 1)] * 31 + [run(1, 1)] * 224 + [P(i % 2) for i in range(150)], segments=segments)
case('18 1048576 contents', 18, fanned(), (11000000, 16, WORK))

# ---- 3583 strings, by the bypass: 65 bytes each, and two of them in the book
case('3583 strings of 65 bytes', (3583, 3583, 0), longs(6, 511), (65536, 262144, WORK))
case('18 3584 strings of 65 bytes', 18, longs(6, 512), (65536, 262144, WORK))
case('3584 calls for one string of 65 bytes', (1, 3584, 0), but(longs(6, 512), layers=[Layer([b'a' * 65, b'b' * 65], [P(0)] * 512)]), LARGE)

# ---- 3583 distinct strings: a reading brings one more, the next one takes it away again; what no node names is dropped
def distinct(n):
    strings = [b''] + [b'%c' % i for i in range(65, 123)] + [b'%c%c' % (i, j) for i in range(65, 127) for j in range(65, 127)]
    assert len(set(strings[:n])) == n
    return book(abc, strings[:n], [P(i) for i in range(n)], [], [inline(0, 2, 14, 0, [0, n])])
def third(string): return 8, 9, b'x', book('xc', [string], nodes=[inline(0, 1, 12, 0, [0])])
def third_again(letter, string): return 8, 9, letter, book(letter.decode() + 'c', [string], nodes=[inline(0, 1, 12, 0, [0])])
case('3583 distinct strings, then one more', (3583, 3583, 0), distinct(3583), LARGE, correction=third('one more'), merges=(0, 0))
case('18 3584 distinct strings in two layers, then none more', 18, None, LARGE, correction=third_again(b'y', 'A'), merges=(0, None))
case('3583 distinct strings, one of them in two layers, and one that no node names', (3583, 3583, 0), None, LARGE)
case('3583 distinct strings, flat, then one more', (3583, 3583, 0), None, LARGE, correction=third_again(b'z', 'one more'), merges=(0, 0))
case('18 3584 distinct strings, then none at all', 18, None, LARGE, correction=(8, 9, b'', plain('c')), merges=(0, None))
case('3583 distinct strings, the layer of one more is left', (3583, 3583, 0), None, LARGE)

# ---- room. A flat book: 9 bytes, a layer of 1 + 5 a string + 10 a content + 37 a segment, 49 a node, 18 a pair, 13 a container, 18 a diagnostic, 1
exact('empty book', (0, 0, 0), empty(), 11, 0)
exact('no nodes', (0, 0, 0), plain(abc), 11, 20)
exact('no nodes, 32 layers with strings', (0, 0, 0), but(plain(abc), layers=[Layer([b'abc']) for _ in range(32)]), 11, 20)
exact('P5', (2, 2, 0), tape_cases.result(), 90, 23)
exact('only blocks', (0, 0, 0), blocks(), 207, 24)
exact('a string of 65 bytes twice', (3, 3, 0), quote([0, 1, 0], ['a' * 65, '']), 105, 134)
def listed(): return but(joined(), layers=[Layer([b'a'])] * 3)
exact('a node, a pair, a container and diagnostics', (0, 0, 0), listed(), 336, 41)
for tape in (0, 1, 8, 9, 10): case('18 a tape of %d bytes' % tape, 18, plain(abc), (tape, ROOM[1], WORK))
for data in (0, 9, 10, 19): case('18 room for %d bytes, no room for the texts' % data, 18, plain(abc), (ROOM[0], data, WORK))
for tape in (40, 60, 80): case('18 a tape of %d bytes, which breaks off in the P5 book' % tape, 18, tape_cases.result(), (tape, 23, WORK))
for tape in (205, 206, 317, 318, 335): case('18 a tape of %d bytes, which breaks off in the lists' % tape, 18, listed(), (tape, 41, WORK))
case('room for the flat book, none for the book as it is', (1, 0, 0), nodes_of((12, 0, [3])), (65, 5, WORK))
case('18 room for the book as it is, none for what unfolds', 18, nodes_of((14, 0, [1, 2]), (14, 0, [1, 2]), strings='ab', contents=[P(1), P(1), P(1)], segments=[]), (153, 9, WORK))
case('room for what unfolds', (1, 4, 0), nodes_of((14, 0, [1, 2]), (14, 0, [1, 2]), strings='ab', contents=[P(1), P(1), P(1)], segments=[]), (154, 9, WORK))

# ---- work words
for what, b, told in (('', tape_cases.result(), (2, 2, 0)), (', no nodes', plain(abc), (0, 0, 0)), (', only blocks', blocks(), (0, 0, 0))):
    case('16384 work words' + what, told, b)
    for words in (16383, 1, 0): case('18 %d work words%s' % (words, what), 18, b, (*ROOM[:2], words))
case('more work words than are asked', (2, 2, 0), tape_cases.result(), (*ROOM[:2], 65536))
case('more work words than are asked, 225 strings in 29 layers', (225, 225, 0), spread(225, 8), (*ROOM[:2], 20001))
case('18 more work words than are asked, a tape one byte short', 18, tape_cases.result(), (89, 23, 20001))

# ---- the lists stand as they stood: none is sorted, nothing is dropped
def diagnostics(*ds): return [(kind, rank, a, e, plain) for plain, (kind, rank, a, e) in enumerate(ds)]
unsorted = diagnostics((4, 2, 8, 9), (0, 2, 0, 1), (0, 1, 0, 1), (1, 2, 0, 1), (3, 2, 8, 9), (2, 2, 0, 1), (4, 2, 8, 9), (2, 0, 3, 5))
case('diagnostics with equal keys, and out of order', (0, 0, 0), layers(but(plain(abc), diags=unsorted), 2))
case('more than 32 diagnostics out of order', (0, 0, 0), but(plain(abc), diags=diagnostics(*[(0, i * i % 3 % 2, i * 7 % 9, 9) for i in range(40)])))
case('marks of no width out of order, also at the ends of the text', (0, 0, 0), layers(marked(abc, mark(10, 1), mark(0, 2, 3), mark(10, 3, 1), (1, 0, 0, 10, 4), mark(5, 5), mark(0, 6)), 3))
case('marks of no width in a text of no bytes', (0, 0, 0), layers(marked('', mark(0, 1, 1, 9), mark(0, 2, 0, 8)), 2))
case('pairs and containers out of order, and equal ones', (0, 0, 0), layers(but(plain(abc), pairs=[(4, 4, 5, 5, 6), (0, 0, 1, 8, 9), (4, 4, 5, 5, 6)], containers=[(NONE, 5, 9), (0, 0, 1), (NONE, 5, 9)]), 2))
def marked_joined():
    b = joined()
    b.nodes[1].body = Body(12, 0, (5, 6), [1])
    return but(b, layers=[Layer([b'a', b'b'])])
case('a list of each, with a string', (1, 0, 0), layers(marked_joined(), 32))
case('offsets at both ends of their images', (0, 0, 0), layers(at_ends(around(), 6, 8, 11, 14, 23), 4))
case('a normalized text of its own', (0, 0, 0), split(2))
case('characters of three bytes', (2, 2, 0), but(book('漢字\n\nあ', nodes=[inline(0, 3, 1, 0, [1, 1, 0, 1])]), layers=[Layer(['かん'.encode()], [P(0)]), Layer(['漢'.encode()], [P(1)])]))

# ---- then a merge: that of the flat book says what that of the book says, but for 17, which is gone, and for 18
def then(label, told, b, correction, before, after, room=ROOM): case(label + ', then a merge', told, b, room, correction, (before, after))
p5 = 4, 5, b'x', ruby()
then('32 layers', (0, 0, 0), layers(plain(abc), 32), p5, 17, 0)
then('32 layers, a string of each, three nodes', (3, 0, 0), but(book(abc, nodes=[inline(0, 1, 12, 0, [31]), inline(4, 5, 12, 0, [0]), inline(8, 9, 12, 0, [5])]), layers=[Layer([b'%c' % (65 + i)]) for i in range(32)]), p5, 17, 0)
then('the merged book', (4, 2, 0), None, (0, 1, b'x', plain('xa\n\n')), 0, 0)
then('32 layers, a reading without nodes', (0, 0, 0), layers(plain(abc), 32), (4, 5, b'x', plain('xb\n\n')), 0, 0)
then('32 layers, a reading with a BlockOpen and a BlockClose', (0, 0, 0), layers(plain(abc), 32), (4, 5, b'x', book('xb\n\n', nodes=[block(2, 0, 1), block(3, 1, 2)])), 17, 0)
then('31 layers', (0, 0, 0), layers(plain(abc), 31), p5, 0, 0)
then('18 runs of 32 levels, doubled, 32 layers: it stays at 17', 18, layers(but(book('n\n\nbb', nodes=[inline(0, 1, 14, 0, [64, 1])]), layers=doubling(32).layers), 32), (3, 4, b'x', book('xb', nodes=[leaf(0, 1, 5)])), 17, None)
then('the region has the only node', (2, 2, 0), layers(tape_cases.result(), 3), (4, 5, b'y', plain('yb\n\n')), 0, 0)
then('nodes at the edges of the region', (0, 0, 0), layers(around(), 32), (4, 5, b'xyz', book('xyzb\n\n', 'k', nodes=[inline(0, 5, 12, 0, [0], (8, 9))])), 17, 0)
then('two passages joined', (0, 0, 0), layers(joined(), 32), (6, 7, b'x', book('bbx\ncc\n\n', ['bx', 'c'], [P(0), P(1)], [], [inline(1, 3, 1, 0, [0, 1, 1, 1]), leaf(4, 5, 6)])), 17, 0)
then('diagnostics out of order, which the merge sorts', (0, 0, 0), layers(but(plain(abc), diags=unsorted), 32), p5, 17, 0)
then('marks of no width', (0, 0, 0), layers(marked(abc, mark(10, 1), mark(4, 2), mark(0, 3)), 32), p5, 17, 0)
# the other numbers are the merge's
for number, label, b, correction in ((8, 'start behind the end', plain(abc), (5, 4, b'x', ruby())), (9, 'the same text', plain(abc), (4, 5, b'b', plain('bb\n\n'))),
        (11, 'the whole text', plain('aa\n\nbb'), (3, 5, b'x', plain('x'))), (12, 'another text', plain(abc), (4, 5, b'x', plain('xc\n\n'))),
        (14, 'a mark of no width at an empty region', marked('aa\n', mark(3)), (3, 3, b'x', plain('x'))), (16, 'a cut inside a normalized character', split(), (5, 6, b'x', plain('x')))):
    then('%d %s' % (number, label), (0, 0, 0), layers(b, 32), correction, number, number)
# 10 and 15 compare strings: of a Ruby and a Format whose strings stood in two layers
def apart(b, base, target):
    """the Ruby's base is content 0, the Format's target content 1, each of its own layer"""
    for n in b.nodes: n.body.words[0] = 1 if n.body.kind == 2 else 0
    return layers(but(b, layers=[Layer([base], [P(0)]), Layer([b'unnamed', target], [P(2)])]), 32)
then('10 a Format of an earlier Ruby, its string in another layer', (1, 2, 0), apart(linked(), b'a', b'a'), (3, 3, b'x', plain('xb\n\n')), 10, 10)
then('a Format of another string', (2, 2, 0), apart(linked(), b'a', b'b'), (3, 3, b'x', plain('xb\n\n')), 0, 0)
then('15 a Ruby before a Format of the rest', (1, 1, 0), layers(formats(8), 32), (4, 5, b'x', ruby()), 15, 15)
then('15 a Format behind a Ruby of its target', (1, 1, 0), layers(merge_cases.rubies(0), 32), (4, 5, b'x', merge_cases.reading_format()), 15, 15)

# ---- a book that 31 merges made: each passage read anew, in turn, until 17
def grown():
    tape, data = plain(abc).tape(), plain(abc).bytes()
    for i in range(31):
        at, letter, end = 4 * (i % 3), b'%c' % (65 + i), '\n\n' * (i % 3 < 2)
        reading = book(letter.decode() + 'abc'[i % 3] + end, [letter, b'every'], [P(0), P(1)], [text(1)], [inline(0, 2, 1, 0, [0, 1, 1, 1])])
        tape, data, _ = merge(tape, data, at, at + 1, letter, reading.tape(), reading.bytes())
    return merge_cases.Stored(tape, data)
then('a book that 31 merges made', (4, 6, 0), grown(), (4, 5, b'x', ruby()), 17, 0)
case('the same, flat and merged', (5, 6, 0), None)
case('the same, flat', (5, 6, 0), None)
