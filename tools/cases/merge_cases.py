"""Cases of the whole merge: label, the number (0: accepted), old book, edit, replacement, reading, and the room that is lent (bytes for the
tape, bytes for texts and strings, work words)."""
from small import *
from book import check_book
from graft_cases import doubling, probed
from merge import WORK, merge, shown
from tape_cases import but, nest, node

ROOM = (65536, 65536, WORK)

cases = []
def case(label, old, start, end, replacement, reading, room=ROOM, number=0): cases.append((label, number, old, start, end, replacement, reading, room))
def refused(number, label, *rest, **more): case('%d %s' % (number, label), *rest, **more, number=number)

def on_abc(label, reading, **more): case(label, plain(abc), 4, 5, b'x', reading, **more)
def abc_refused(number, label, reading, **more): refused(number, label, plain(abc), 4, 5, b'x', reading, **more)
def xb(*more, **named): return book('xb\n\n', *more, **named)
def layers(b, n): return but(b, layers=b.layers + [Layer() for _ in range(n - len(b.layers))])
def moved(b):
    """a source of graft_cases.py or tape_cases.py as a reading of the text that P5 has"""
    node = b.nodes[0]
    return but(xb(nodes=[inline(0, 2, node.body.kind, node.body.tag, node.body.words)]), layers=b.layers)

# ---- worked examples
on_abc('P5', ruby())
case('P6', plain('aa\n\nbb'), 5, 5, b'x', plain('bxb'))
case('P7', plain('aa\n\nbb'), 3, 3, b'\n', plain('aa\n\n\n'))
case('P8', plain('aa\n'), 3, 3, b'x', plain('x'))
refused(11, 'P9', plain(''), 0, 0, b'a', plain('a'))
refused(11, 'P10', plain('abc'), 0, 1, b'x', plain('xbc'))

# ---- 1 to 7, of the old book and of the reading
broken = [(1, 'byte behind the end', lambda b: but(b, tail=b'\0')), (1, 'no layer', lambda b: but(b, layers=[])), (2, 'string', lambda b: but(b, layers=[Layer([b'\x80'])])),
          (4, 'id of an empty pool', lambda b: but(b, layers=[Layer([], [P(0)])])), (5, 'level 0 of a Node segment', lambda b: but(b, layers=[Layer([], [], [node(0)])])),
          (6, 'diagnostic that ends before it starts', lambda b: but(b, diags=[(0, 0, 1, 0, 0)])), (7, 'normalized text one too long', lambda b: but(b, norm=b.norm + b'a'))]
for number, what, breaks in broken:
    refused(number, 'old book, ' + what, breaks(plain(abc)), 4, 5, b'x', ruby())
    abc_refused(number, 'reading, ' + what, breaks(plain('xb\n\n')))
refused(3, 'old book, 33 layers', layers(plain(abc), 33), 4, 5, b'x', ruby())
abc_refused(1, 'reading with two layers', layers(ruby(), 2))
abc_refused(1, 'reading with 33 layers', layers(ruby(), 33))
refused(2, 'replacement', plain(abc), 4, 5, b'\xff', ruby())
refused(6, 'old book before 7 of the reading', marked(abc, (0, 0, 1, 0, 0)), 4, 5, b'x', but(plain('xb\n\n'), norm=b''))
refused(7, 'old book before 1 of the reading', but(plain(abc), norm=b''), 4, 5, b'x', but(plain('xb\n\n'), tail=b'\0'))

# ---- 8 to 11, before the reading's numbers
bad = lambda: but(plain(''), tail=b'\0')
refused(8, 'start behind the end', plain(abc), 5, 4, b'x', bad())
refused(8, 'end past the text', plain(abc), 4, 11, b'x', bad())
refused(8, 'inside a character, before 2', plain('é\n\nb'), 1, 2, b'\xff', bad())
refused(9, 'the same text', plain(abc), 4, 5, b'b', bad())
def linked(tag=4): return book('a\n\nb\n\n', 'a', [P(0)], [], [inline(0, 1, 1, 0, [0, 1, 0, 0]), inline(3, 4, 2, tag, [0, 1])])
refused(10, 'Format of an earlier Ruby', linked(), 3, 3, b'x', bad())
refused(11, 'the whole text', plain('aa\n\nbb'), 3, 5, b'x', bad())

# ---- 12 to 18, each with the next ones wrong too
unclosed = lambda b: but(b, diags=[(2, 0, 0, 1, 0)])
abc_refused(12, 'another text', plain('xc\n\n'))
abc_refused(12, 'another text, before 13', unclosed(book('xc\n\n', nodes=[block(2, 0, 1)])))
abc_refused(13, 'a block not closed', xb(nodes=[block(2, 0, 1)]))
abc_refused(13, 'a block closed before it opens', xb(nodes=[block(3, 0, 1), block(2, 1, 2)]))
abc_refused(13, 'a warichu closed before it opens', xb('w', nodes=[inline(0, 1, 13, 5, [0]), inline(1, 2, 13, 4, [0])]))
abc_refused(13, 'before 14', unclosed(xb(nodes=[block(2, 0, 1)])))
abc_refused(14, 'diagnostic kind 2', unclosed(plain('xb\n\n')))
abc_refused(14, 'diagnostic kind 3', but(plain('xb\n\n'), diags=[(4, 0, 0, 1, 0), (3, 0, 0, 1, 0)]))
def formats(at): return book(abc, 'x', [P(0)], [], [inline(at, at + 1, 2, 4, [0, 1])])
def rubies(at): return book(abc, 'x', [P(0)], [], [inline(at, at + 1, 1, 0, [0, 1, 0, 0])])
def reading_format(tag=4): return xb('yx', [P(1)], [], [inline(0, 1, 2, tag, [0, 1])])
refused(15, 'a Ruby before a Format of the rest', formats(8), 4, 5, b'x', ruby())
refused(15, 'a Format behind a Ruby of its target', rubies(0), 4, 5, b'x', reading_format())
refused(14, 'before 15', formats(8), 4, 5, b'x', unclosed(ruby()))
case('a Ruby behind a Format', formats(0), 4, 5, b'x', ruby())
case('a Format before a Ruby of its target', rubies(8), 4, 5, b'x', reading_format())
case('a Format that is not Referenced', rubies(0), 4, 5, b'x', reading_format(8))
def split(n=1): return layers(but(plain('aaa\n\nb'), norm='漢漢'.encode()), n)
refused(16, 'a cut inside a character', split(), 5, 6, b'x', plain('x'))
refused(16, 'before 17', split(32), 5, 6, b'x', book('x', nodes=[inline(0, 1, 5)]))
refused(17, '32 layers', layers(plain(abc), 32), 4, 5, b'x', ruby())
refused(17, 'before 18', layers(plain(abc), 32), 4, 5, b'x', ruby(), room=(0, 0, 0))
abc_refused(18, 'tape one byte short', ruby(), room=(90, 23, WORK))
abc_refused(18, 'bytes one short', ruby(), room=(91, 22, WORK))
abc_refused(18, '16383 work words', ruby(), room=(91, 23, WORK - 1))
abc_refused(18, 'no node, 16383 work words', plain('xb\n\n'), room=(91, 23, WORK - 1))
abc_refused(18, '32 levels, doubled', moved(doubling(32)))
on_abc('P5, both buffers full', ruby(), room=(91, 23, WORK))

# ---- layers and levels
case('31 layers', layers(plain(abc), 31), 4, 5, b'x', ruby())
case('32 layers, no node', layers(plain(abc), 32), 4, 5, b'x', plain('xb\n\n'))
on_abc('32 levels', moved(nest(32)))
abc_refused(5, '33 levels', moved(nest(33)))
case('strings of the old book are not found', book(abc, 'xb', [P(0)], [], [inline(0, 2, 14, 0, [0, 1])]), 4, 5, b'x', ruby())
on_abc('a pool that no node names is not grafted', xb('abc', [P(0), P(1)], [], [inline(0, 1, 12, 0, [2])]))

# ---- readings without nodes
case('a passage taken away', plain('aa\n\nbb'), 4, 6, b'', plain(''))
case('a passage put in at the end', plain('aa\n\n'), 4, 4, 'é\n'.encode(), plain('é\n'))
case('the first passage', plain(abc), 0, 1, b'', plain('a\n\n'))

# ---- moved and dropped: nodes, pairs, containers, diagnostics at the edges of the region 4..8
def around():
    """images of 7, 3, 3 and 7 bytes: the normalized region is 8..11"""
    return book(abc, nodes=[leaf(0, 1, 5), inline(2, 4, 4), inline(4, 8, 6), leaf(8, 9, 7), block(2, 9, 10, 1, (1, 2))])
case('nodes at the edges', around(), 4, 5, b'xyz', book('xyzb\n\n', 'k', nodes=[inline(0, 5, 12, 0, [0], (8, 9))]))
case('nodes at the edges, a shorter passage', around(), 4, 6, b'', plain('\n\n'))
def at_ends(b, *offsets):
    for n, off in zip(b.nodes, offsets): n.off = off
    return b
case('offsets at both ends of their images', at_ends(around(), 6, 8, 11, 14, 23), 4, 5, b'xx', book('xxb\n\n', nodes=[inline(0, 3, 5)]))
case('containers at the edges', but(plain(abc), containers=[(1, 0, 3), (2, 0, 4), (3, 2, 5), (4, 5, 6), (5, 7, 9), (6, 8, 9)]), 4, 5, b'xx', but(plain('xxb\n\n'), containers=[(7, 0, 4), (8, 1, 2)]))
case('pairs at the edges', but(plain('aa\n\nb\n\n\n\ncc'), pairs=[(0, 0, 1, 3, 4), (1, 4, 5, 6, 7), (2, 9, 10, 10, 11)]), 4, 5, b'xx', but(plain('xx\n\n'), pairs=[(3, 0, 1, 3, 4), (4, 0, 2, 2, 3)]))
def diagnostics(*ds): return [(kind, rank, a, e, plain) for plain, (kind, rank, a, e) in enumerate(ds)]
case('diagnostics at the edges',
     but(plain(abc), diags=diagnostics((4, 0, 3, 4), (0, 0, 3, 5), (1, 0, 4, 8), (2, 0, 7, 9), (3, 0, 8, 9), (4, 0, 0, 10))), 4, 5, b'xx', but(plain('xxb\n\n'), diags=[(4, 9, 0, 5, NONE)]))
case('diagnostics with equal keys, and out of order',
     but(plain(abc), diags=diagnostics((4, 2, 8, 9), (0, 2, 0, 1), (0, 1, 0, 1), (1, 2, 0, 1), (3, 2, 8, 9), (2, 2, 0, 1), (4, 2, 8, 9))), 4, 5, b'x',
     but(plain('xb\n\n'), diags=[(1, 7, 0, 1, 9), (0, 7, 0, 1, 8), (4, 7, 0, 1, 7), (4, 6, 0, 1, 6)]))
case('more than 32 diagnostics with equal keys', but(plain(abc), diags=diagnostics(*[(0, i * i % 3 % 2, 0, 1) for i in range(40)])), 4, 5, b'x', plain('xb\n\n'))
case('characters of three bytes', plain('漢字\n\nあ\n\n字'), 8, 11, '漢'.encode(), book('漢\n\n', ['漢', 'かん'], [P(0), P(1)], [], [inline(0, 3, 1, 0, [0, 1, 1, 1])]))

# ---- document 02, wish 1: an end cut without its blank line in the new text is passed over
refused(11, 'blank line lost, no later cut', plain('aa\n\nbb'), 2, 3, b'x', plain('aax\n'))
case('blank line lost, a later cut', plain(abc), 2, 3, b'x', plain('aax\nbb\n\n'))
refused(12, 'blank line lost, the reading of the shorter passage', plain(abc), 2, 3, b'x', plain('aax\n'))
case('blank line lost, the first newline taken away', plain(abc), 2, 3, b'', plain('aa\nbb\n\n'))
case('blank line lost, a letter between the newlines', plain(abc), 3, 3, b'x', plain('aa\nx\nbb\n\n'))
case('the replacement ends in a newline', plain(abc), 2, 3, b'x\n', plain('aax\n\n'))
case('one byte before the moved cut', plain('\n\nb\n\nc'), 0, 1, b'', plain('\nb\n\n'))
case("the text's end, its blank line lost", plain('aa\n\nbb\n\n'), 6, 7, b'x', plain('bbx\n'))
def joined():
    """records at the edges of the region 4..12 and at the cut 8, which "x" over 6..7 takes away; images of 7, 3 and 7 bytes"""
    b = book(abc + '\n\ndd', nodes=[leaf(3, 4, 5), inline(8, 10, 6), leaf(12, 13, 7)])
    return but(b, pairs=[(0, 2, 3, 3, 4), (1, 8, 9, 9, 10), (2, 12, 13, 13, 14)], containers=[(1, 0, 9), (2, 10, 11), (3, 14, 15), (4, 20, 25)],
               diags=[(0, 0, 3, 4, 1), (1, 0, 7, 8, 2), (4, 0, 8, 9, 3), (1, 0, 12, 13, 4)])
case('blank line lost between two passages with nodes', joined(), 6, 7, b'x', book('bbx\ncc\n\n', ['bx', 'c'], [P(0), P(1)], [], [inline(1, 3, 1, 0, [0, 1, 1, 1]), leaf(4, 5, 6)]))
refused(12, 'blank line lost between two passages with nodes, the reading of the first', joined(), 6, 7, b'x', book('bbx\n', nodes=[leaf(0, 1, 5)]))

# ---- document 02, wish 5: marks of no width. "One that lies at or before the region's start counts as before it; otherwise at or behind the region's end
# counts as behind"
def kept(label, plains, old, *edit):
    """plains: the plain words of the merged book's diagnostics, in their order, which tell marks with equal keys apart"""
    case(label, old, *edit)
    tape, data, _ = merge(old.tape(), old.bytes(), *edit[:3], edit[3].tape(), edit[3].bytes())
    assert [d[4] for d in check_book(tape, data).diags] == plains, label
kept('marks of no width at the cuts, inside and at both ends of the text', [7, 6, 2, 1],
     marked(abc, mark(10, 1), mark(8, 2), mark(7, 3), mark(6, 4), mark(5, 5), mark(4, 6), mark(0, 7)), 4, 5, b'xy', plain('xyb\n\n'))
kept('marks of no width around the cuts, a shorter passage', [1, 2], marked(abc, mark(9, 2), mark(7, 4), mark(5, 3), mark(3, 1)), 4, 7, b'\n', plain('\n\n'))
kept('mark of no width at 0, where the region begins', [1, 3], marked(abc, mark(0, 1), mark(1, 2), mark(4, 3)), 0, 1, b'', plain('a\n\n'))
kept("mark of no width at the text's end, where the region ends", [3, 1], marked('aa\n\nbb', mark(6, 1), mark(5, 2), mark(4, 3)), 5, 5, b'x', plain('bxb'))
kept('marks of no width and diagnostics with a width at the cuts', [6, 5, 10, 8, 11, 9, 1, 2],
     marked(abc, mark(8, 1), (1, 0, 8, 9, 2), (1, 0, 7, 8, 3), (0, 0, 4, 5, 4), mark(4, 5), (4, 0, 3, 4, 6), (4, 0, 3, 5, 7)), 4, 5, b'xx',
     marked('xxb\n\n', (1, 0, 0, 5, 8), mark(5, 9), mark(0, 10), (1, 0, 4, 5, 11)))
# the reading's marks at 0 and at its end have the keys of old ones: before, the reading's, behind; but a smaller code rank goes first
def at_both(*ranks):
    """marks of these code ranks at both cuts of 4..8, those behind first, and at both ends of the reading"""
    def ends(*places): return [mark(at, plain + i, kind, rank) for at, plain, kind in places for i, rank in enumerate(ranks)]
    return marked(abc, *ends((8, 80, 1), (4, 40, 4))), 4, 5, b'xy', marked('xyb\n\n', *ends((5, 50, 0), (0, 0, 1)))
kept("marks of no width with equal keys: before, the reading's, behind", [40, 41, 0, 1, 50, 51, 80, 81], *at_both(3, 3))
kept("marks of no width of three code ranks: before, the reading's, behind", [41, 43, 1, 3, 40, 0, 42, 2, 51, 53, 81, 83, 50, 80, 52, 82], *at_both(2, 1, 3, 1))
kept("marks of no width in a reading of the last passage, also at the text's end", [2, 5, 4, 3, 1], marked('aa\n\nbb', mark(6, 1), mark(4, 2)), 5, 5, b'x', marked('bxb', mark(3, 3), mark(2, 4), mark(0, 5)))
# the reading of a passage taken away has no bytes, and can have marks
def taken(n): return marked('aa\n\nbb', *[mark(at, 100 * at + i) for i in range(n) for at in (6, 5, 4)]), 4, 6, b'', marked('', *[mark(0, i, 1) for i in range(n)])
kept('a passage taken away, the marks of no width at both its ends meet', [400, 0, 600], *taken(1))
kept('a passage taken away, more than 32 marks of no width meet', [base + i for base in (400, 0, 600) for i in range(12)], *taken(12))
kept('a passage taken away, marks of no width and diagnostics with a width meet', [1, 4, 2], marked('aa\n\nbb', (1, 0, 3, 4, 1), mark(6, 2), (1, 0, 4, 6, 3), mark(4, 4)), 4, 6, b'', plain(''))
# one past the text
refused(6, 'old book, mark of no width one past the text', marked(abc, mark(11)), 4, 5, b'x', ruby())
abc_refused(6, 'reading, mark of no width one past its text', marked('xb\n\n', mark(5)))
refused(6, 'reading of no bytes, mark of no width at 1', plain('aa\n\nbb'), 4, 6, b'', marked('', mark(1)))
# "14 also holds where the region is empty and a mark of no width of the old book lies at its place"
def at_the_end(*old, reading=None): return marked('aa\n', *old), 3, 3, b'x', reading or plain('x')
refused(14, 'mark of no width at an empty region', *at_the_end(mark(3)))
for kind in (1, 2, 3, 4): refused(14, 'mark of no width of kind %d at an empty region' % kind, *at_the_end(mark(3, kind=kind)))
refused(14, 'mark of no width at an empty region, the first of three', *at_the_end(mark(3), mark(2), (1, 0, 2, 3, 0)))
refused(14, 'mark of no width at an empty region, the last of three', *at_the_end((1, 0, 2, 3, 0), mark(0), mark(3)))
refused(14, 'mark of no width at an empty region behind a blank line', marked('aa\n\n', mark(4)), 4, 4, 'é\n'.encode(), plain('é\n'))
refused(14, 'mark of no width at an empty region behind one newline', marked('aa\n\nbb\n', mark(7)), 7, 7, b'x', plain('x'))
kept('the same new text, the edit writes the newline again', [1], marked('aa\n\nbb\n', mark(7, 1)), 6, 7, b'\nx', plain('bb\nx'))
kept('empty region, mark of no width one before its place', [1], *at_the_end(mark(2, 1)))
kept('empty region, diagnostic with a width that ends at its place', [1], *at_the_end((2, 0, 2, 3, 1)))
kept('empty region, marks of no width in the reading', [3, 1, 2, 5, 6, 4], *at_the_end(mark(2, 1), (1, 0, 2, 3, 2), mark(0, 3), reading=marked('x', mark(1, 4), mark(0, 5), (0, 0, 0, 1, 6))))
abc_refused(14, 'mark of no width of kind 2 in the reading', marked('xb\n\n', mark(4, kind=2)))
# its place among the numbers; 16 is never wrong at an empty region, both cuts being the text's end
refused(11, 'a text of no bytes, before 14', marked('', mark(0)), 0, 0, b'a', plain('a'))
refused(7, 'reading, before 14', *at_the_end(mark(3), reading=but(plain('x'), norm=b'')))
refused(12, 'another text, before 14 by a mark of no width', *at_the_end(mark(3), reading=plain('y')))
refused(13, 'a block not closed, before 14 by a mark of no width', *at_the_end(mark(3), reading=book('x', nodes=[block(2, 0, 1)])))
def behind_ruby(*diags): return but(book('aa\n', 'x', [P(0)], [], [inline(0, 1, 1, 0, [0, 1, 0, 0])]), diags=list(diags)), 3, 3, b'x', book('x', 'yx', [P(1)], [], [inline(0, 1, 2, 4, [0, 1])])
refused(15, 'a Format behind a Ruby of its target, at an empty region', *behind_ruby(mark(2)))
refused(14, 'mark of no width at an empty region, before 15', *behind_ruby(mark(3)))
refused(14, 'mark of no width at an empty region, before 17', layers(marked('aa\n', mark(3)), 32), 3, 3, b'x', book('x', nodes=[inline(0, 1, 5)]))
refused(14, 'mark of no width at an empty region, before 18', *at_the_end(mark(3)), room=(0, 0, 0))

# ---- document 02, wish 7: the ceiling on probing; the returned probes against the list of calls that the reading makes
for label, reading in probed: case('wish 7: ' + label, plain('aa\n\nb'), 4, 5, reading.text, reading)

# ---- both orders of a pair, demand 3
class Stored:
    """a result, as the next old book"""
    def __init__(s, tape, data):
        b = check_book(tape, data)
        s.tape, s.bytes, s.text, s.diags = lambda: tape, lambda: data, b.text, b.diags
def pair(label, old, first, last, number=0):
    """number: what refuses the later one behind the earlier, 0 if nothing does"""
    by = len(first[2]) - (first[1] - first[0])
    ends = []
    for name, edit, other, told in [('earlier first', first, (last[0] + by, last[1] + by) + last[2:], number), ('later first', last, first, 0)]:
        case('%s, %s' % (label, name), old, *edit)
        tape, data, _ = merge(old.tape(), old.bytes(), *edit[:3], edit[3].tape(), edit[3].bytes())
        then = '%s, %s, then the other' % (label, name), Stored(tape, data), *other
        if told:
            refused(told, *then)
            continue
        case(*then)
        tape, data, _ = merge(tape, data, *other[:3], other[3].tape(), other[3].bytes())
        ends.append(shown(check_book(tape, data)))
    assert all(e == ends[0] for e in ends)
def last(at): return at, at + 2, b'c', book('c', 'qq', [P(1)], [], [inline(0, 1, 14, 0, [0, 1])])
# the first passage longer by two, the third shorter by one
pair('both orders', book(abc, 'r', [P(0)], [], [inline(5, 6, 9, 0, [0, 1]), leaf(8, 9, 5)]),
     (0, 1, b'x\xc3\xa9', book('xéa\n\n', ['é', 'q'], [P(1), P(0)], [], [inline(1, 3, 15, 0, [0, 1, 1, 1])])), last(8))
# wish 1: the second passage joined to the third, the fourth shorter by one; the regions 4..12 and 12..14 touch
pair('both orders, two passages joined', joined(), (6, 7, b'', book('bb\ncc\n\n', 'q', [P(0)], [], [inline(1, 3, 9, 0, [0, 1])])), last(12))
# wish 5: marks at the ends of the text, at the cut where the regions 0..4 and 4..8 touch, and in both readings there; the last passage taken away; and
# a mark that the earlier reading leaves where the later region is empty
pair('both orders, marks of no width where the regions touch', marked(abc, *[mark(at, at, 4) for at in (10, 8, 7, 4, 2, 0)]),
     (0, 1, b'xyz', marked('xyza\n\n', mark(6, 21), mark(0, 22))), (4, 5, b'', marked('b\n\n', mark(3, 31, 1), mark(0, 32, 1))))
pair('both orders, marks of no width, the last passage taken away', marked(abc, *[mark(at, at, 4) for at in (10, 9, 8, 4)]), (4, 6, b'x', marked('x\n\n', mark(3, 21))), (8, 10, b'', marked('', mark(0, 31, 1))))
left = plain('aa\n\nbb\n\n'), (4, 5, b'y', marked('yb\n\n', mark(4))), (8, 8, b'x', plain('x'))
pair('both orders, a mark of no width left where the later region is empty', *left, number=14)
