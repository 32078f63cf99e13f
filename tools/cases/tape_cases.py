"""Cases of numbers 1 to 7 and of what is asked of an accepted book: label, number, book, and the two numbers of the lookups (an offset
or id or start, and a length). A refused book is the smallest accepted one that has the thing in question, with that one thing changed;
where two things are changed, the smaller number is the answer ("rising")."""
from small import *

cases = []
def case(label, number, b, start=0, end=0): cases.append((label, number, b, start, end))

class Raw:
    """a tape that is no book"""
    def __init__(s, tape, data=b'', layers=1): s.t, s.d, s.layers = tape, data, [None] * layers
    def tape(s): return s.t
    def bytes(s): return s.d

def but(b, **more):
    for k, v in more.items(): setattr(b, k, v)
    return b
def fit(b):
    """the normalized text as long as section 4 says, where small.lay would not make it so"""
    b.norm = b'n' * (len(b.text) + sum(n.image() - (n.end - n.start) for n in b.nodes))
    return b
def one(kind=5, tag=0, words=(), strings=(), contents=(), segments=(), cls=0, inl=0, layers=()):
    """a node over the only byte of the text; a PageBreak, kind 5, has no words"""
    b = book('a', strings, contents, segments, [Node(cls, inl, 0, 1, 0, Body(kind, tag, (0, 0), words))])
    b.layers += layers
    return b
def pools(strings=(), contents=(), segments=(), layers=()):
    """no text, only pools: every pool item is checked, used by a node or not"""
    b = book('', strings, contents, segments)
    b.layers += layers
    return b
def text(id=0): return Seg(0, 0, Body(0, 0, (0, 0), [id]))
def node(level, kind=5, tag=0, words=()): return Seg(3, level, Body(kind, tag, (0, 0), words))
def run(start, length): return (1, start, length)
def spans(text, *nodes): return fit(book(text, nodes=nodes))
empty = lambda: plain('')

# ---- 1: "tape or byte buffer breaks section 4's layout; a book without a layer; a reading without exactly one layer"
# "In this order": 1 "Once", 2 "per layer", .., "10: end". E is the empty book: 1, 0, 0; 2; 10
E = empty().tape()
case('1 empty tape', 1, Raw(b''))
case('1 end alone', 1, Raw(b'\x0a'))
case('1 head cut short', 1, Raw(E[:8]))
case('1 head twice', 1, Raw(E[:9] + E))
case('1 no layer', 1, but(empty(), layers=[]))
case('1 no end', 1, Raw(E[:-1]))
case('1 byte 0 behind the end', 1, but(empty(), tail=b'\0'))
case('1 second end', 1, but(empty(), tail=b'\x0a'))
case('1 command 11', 1, Raw(E[:-1] + b'\x0b\x0a'))
case('1 string cut short', 1, Raw(pools(['']).tape()[:-2]))
case('1 content cut short', 1, Raw(pools([''], [P(0)]).tape()[:-2]))
case('1 segment cut short', 1, Raw(pools([''], [], [text()]).tape()[:-2]))
case('1 node cut short', 1, Raw(one().tape()[:-2], one().bytes()))
D = but(plain('a'), diags=[(0, 0, 0, 1, 0)])
case('1 diagnostic cut short', 1, Raw(D.tape()[:-2], D.bytes()))
# inside a layer 3, then 4, then 5; behind the layers 6, 7, 8, 9
S, C = b'\x03' + W(0), b'\x04\0' + W(0) + W(0)
case('1 string behind a content', 1, Raw(E[:-1] + S + C + S + b'\x0a'))
case('1 content behind a segment', 1, Raw(E[:-1] + S + text().out() + C + b'\x0a'))
N, L, K = inline(0, 1, 5).out(), b'\x07\0' + W(0) + W(1) + W(1) + W(2), b'\x08' + W(0) + W(0) + W(1)
A = b'\x01' + W(2) + W(4) + b'\x02'
case('1 layer behind a node', 1, Raw(A + N + b'\x02\x0a', b'aannna'))
case('1 node behind a pair', 1, Raw(A + L + N + b'\x0a', b'aannna'))
case('1 pair behind a container', 1, Raw(b'\x01' + W(2) + W(2) + b'\x02' + K + L + b'\x0a', b'aaaa'))
# "A book is a tape and a byte buffer: text, normalized text, strings, nothing more"
case('1 byte buffer one short', 1, Raw(plain('a').tape(), b'a'))
case('1 byte buffer one long', 1, but(plain('a'), extra=b'a'))
case('1 text past the limit of 3 that is not there', 1, Raw(b'\x01' + W(16777216) + W(16777216) + b'\x02\x0a'))
case('1 string length 4294967295', 1, Raw(E[:-1] + b'\x03' + W(NONE) + b'\x0a'))
# "b class (0 Inline, 1 BlockLeaf, 2 BlockOpen, 3 BlockClose)"; "inline is 0 or 1, .. 0 in classes 0 and 1"
case('1 class 4', 1, one(cls=4))
case('1 inline 1 in class 0', 1, one(inl=1))
case('1 inline 1 in class 1', 1, one(cls=1, inl=1))
case('1 inline 2 in class 2', 1, one(kind=0, cls=2, inl=2))
# "classes 0 and 1 carry 1..15"; "Kind 0 is text (word 1 the id) or, for classes 2 and 3, no words"
case('1 kind 0 in class 0', 1, one(kind=0, words=[0], strings=['']))
case('1 kind 5 in class 2', 1, one(cls=2))
case('1 kind 16', 1, one(kind=16))
case('1 word of a BlockOpen', 1, one(kind=0, cls=2, words=[1], strings=['', '']))
# "Unused words and tags are 0"
case('1 first word of a PageBreak', 1, one(words=[1]))
case('1 last word of a PageBreak', 1, one(words=[0, 0, 0, 0, 0, 1]))
case('1 fifth word of a Ruby', 1, one(1, words=[0, 0, 0, 0, 1]))
case('1 tag 1 of a PageBreak', 1, one(tag=1))
# Format: "tag: origin × 4 + payload", four of each; Gaiji and Illustration have three tags, a Directive has 14
case('1 tag 16 of a Format', 1, one(2, 16))
case('1 tag 3 of a Gaiji', 1, one(3, 3, strings=['']))
case('1 tag 3 of an Illustration', 1, one(11, 3, strings=['']))
case('1 tag 14 of a Directive', 1, one(13, 14, strings=['']))
# "string only for AccentBody, QuotedTarget", payloads 2 and 3; mencode only with tag 2; "tag 0 no caption, 1 Plain"
case('1 payload string of payload 1', 1, one(2, 1, [0, 0, 1], ['', '']))
case('1 mencode with tag 0', 1, one(3, 0, [0, 1], ['', '']))
case('1 caption with tag 0', 1, one(11, 0, [0, 0, 0, 0, 1], ['', '']))
case('1 caption length with tag 1', 1, one(11, 1, [0, 0, 0, 0, 0, 1], ['']))
# "4: b tag (0 Plain: id, 0; 1 Segments: start, length)"
case('1 content tag 2', 1, pools([''], [(2, 0, 0)]))
case('1 second word of a Plain content', 1, pools([''], [(0, 0, 1)]))
# "Segment tags 0, 1 and 2 carry kinds 0, 3 and 13; tag 3 and classes 0 and 1 carry 1..15"
case('1 segment tag 4', 1, pools([''], [], [Seg(4, 0, Body())]))
case('1 kind 3 in a Text segment', 1, pools([''], [], [Seg(0, 0, Body(3))]))
case('1 kind 0 in a Gaiji segment', 1, pools([''], [], [Seg(1, 0, Body(0))]))
case('1 kind 3 in a Directive segment', 1, pools([''], [], [Seg(2, 0, Body(3))]))
case('1 kind 0 in a Node segment', 1, pools([''], [], [Seg(3, 1, Body(0))]))
# "7 pair: b kind 0..4"; "9 diagnostic: b kind (.. 4 other)"
case('1 pair kind 5', 1, but(plain('aa'), pairs=[(5, 0, 1, 1, 2)]))
case('1 diagnostic kind 5', 1, but(plain('a'), diags=[(5, 0, 0, 1, 0)]))

# ---- 2: "a text, normalized text, string or replacement isn't UTF-8"
bad = b'\x80'
case('2 text', 2, but(plain(bad), norm=b'a'))
case('2 normalized text', 2, but(plain('a'), norm=bad))
case('2 string', 2, pools([bad]))
case('2 string of the second layer', 2, pools(['a'], layers=[Layer([bad])]))
case('2 character across two strings', 2, pools([b'\xc3', b'\xa9']))
case('2 character across text and normalized text', 2, but(plain(b'\xc3'), norm=b'\xa9'))
case('1 before 2: text, and a byte behind the end', 1, but(plain(bad), tail=b'\0'))
case('2 before 3: text, and 33 layers', 2, but(plain(bad), layers=[Layer() for _ in range(33)]))

# ---- 3: "layers over 32"; the other limits are larger than this input
case('3 33 layers', 3, but(empty(), layers=[Layer() for _ in range(33)]))
case('3 before 4: 33 layers, and an id of an empty pool', 3, but(empty(), layers=[Layer([], [P(0)])] + [Layer() for _ in range(32)]))

# ---- 4: "an id or range outside its pool, or across layers"; AngleQuote, kind 14, has one range of contents
case('4 id of an empty pool', 4, pools([], [P(0)]))
case('4 id one past the pool', 4, pools([''], [P(1)]))
case('4 id 4294967295 of a content', 4, pools([''], [P(NONE)]))
case('4 id one past the pool, of a Text segment', 4, pools([''], [], [text(1)]))
# "Only mencode with tag 2, number, dimensions and description may be missing, written 0xFFFFFFFF"
case('4 hint of a Gaiji missing', 4, one(3, 0, [NONE], ['']))
case('4 mencode one past the pool', 4, one(3, 2, [0, 1], ['']))
case('4 payload of a Format missing', 4, one(2, 2, [0, 0, NONE], ['']))
case('4 string of a HeadingHint missing', 4, one(10, 0, [NONE], ['']))
case('4 file of an Illustration missing', 4, one(11, 0, [NONE, NONE, NONE, NONE], ['']))
case('4 number of an Illustration one past the pool', 4, one(11, 0, [0, 1, NONE, NONE], ['']))
case('4 Plain caption missing', 4, one(11, 1, [0, NONE, NONE, NONE, NONE], ['']))
case('4 raw of a Directive missing', 4, one(13, 0, [NONE], ['']))
# "A range's start plus length is at most its pool's count; one of length above 0 lies in one layer"
case('4 range of an empty pool', 4, one(14, 0, [0, 1]))
case('4 range one past the pool', 4, one(14, 0, [0, 2], [''], [P(0)]))
case('4 empty range behind the end of the pool', 4, one(14, 0, [1, 0]))
case('4 range whose start and length pass 32 bits', 4, one(14, 0, [1, NONE], [''], [P(0)]))
case('4 second range of a Ruby', 4, one(1, 0, [0, 0, 0, 1]))
case('4 second range of a MarginNote', 4, one(15, 0, [0, 0, 0, 1]))
case('4 contents across two layers', 4, one(14, 0, [0, 2], [''], [P(0)], layers=[Layer([], [P(0)])]))
case('4 segments of an empty pool', 4, pools([], [run(0, 1)]))
case('4 segments across two layers', 4, pools([''], [run(0, 2)], [text()], [Layer([], [], [text()])]))
case('4 caption of an empty pool', 4, one(11, 2, [0, NONE, NONE, NONE, 0, 1], ['']))
case('4 before 5: id of an empty pool, and level 0 of a Node segment', 4, pools([], [P(0)], [node(0)]))

# ---- 5: "Level: 0 for segment tags 0..2; a Node segment's is 1..32 and above every level in the segment runs its contents or caption name"
def nest(levels):
    """AngleQuotes one in another: segment i, of level i, holds segment i - 1; segment 0 is a text"""
    segments = [text()] + [node(i, 14, 0, [i - 1, 1]) for i in range(1, levels + 1)]
    return book('a', ['x'], [run(i, 1) for i in range(levels + 1)], segments, [inline(0, 1, 14, 0, [levels, 1])])
case('5 level 1 of a Text segment', 5, pools([''], [], [Seg(0, 1, Body(0))]))
case('5 level 1 of a Gaiji segment', 5, pools([''], [], [Seg(1, 1, Body(3))]))
case('5 level 1 of a Directive segment', 5, pools([''], [], [Seg(2, 1, Body(13))]))
case('5 level 0 of a Node segment', 5, pools([], [], [node(0)]))
case('5 level 33 of a Node segment', 5, pools([], [], [node(33)]))
case('5 level 255 of a Node segment', 5, pools([], [], [node(255)]))
case('5 level of a segment that names itself', 5, pools([], [run(0, 1)], [node(1, 14, 0, [0, 1])]))
case('5 level equal to its inner one', 5, pools([], [run(0, 1)], [node(1), node(1, 14, 0, [0, 1])]))
case('5 level below its inner one', 5, pools([], [run(0, 1)], [node(2), node(1, 14, 0, [0, 1])]))
case('5 level equal to the last of two inner ones', 5, pools([], [run(0, 2)], [node(1), node(2), node(2, 14, 0, [0, 1])]))
case('5 level equal to one of the second range', 5, pools([], [run(0, 1)], [node(1), node(1, 1, 0, [0, 0, 0, 1])]))
case('5 level equal to one of its caption', 5, pools([''], [], [node(1), node(1, 11, 2, [0, NONE, NONE, NONE, 0, 1])]))
case('5 level of a newer layer', 5, pools([], [run(1, 1)], [node(1, 14, 0, [0, 1])], [Layer([], [], [node(1)])]))
case('5 33 levels', 5, nest(33))
case('5 before 6: level 0 of a Node segment, and a diagnostic that ends before it starts', 5, but(plain('a'), layers=[Layer([], [], [node(0)])], diags=[(0, 0, 1, 0, 0)]))

# ---- 6: "spans, offsets in images, pairs, containers, diagnostics"; a PageBreak of class 0 has an image of 3 bytes
def offset(o, cls=0): b = one(cls=cls); b.nodes[0].off = o; return b
# "node spans non-empty, each end ≤ next start, inside the text"
case('6 empty span', 6, spans('a', inline(0, 0, 5)))
case('6 span that ends before it starts', 6, spans('a', inline(1, 0, 5)))
case('6 span past the text', 6, spans('a', inline(0, 2, 5)))
case('6 overlapping spans', 6, spans('aa', inline(0, 2, 5), inline(1, 2, 5)))
case('6 spans out of order', 6, spans('aa', inline(1, 2, 5), inline(0, 1, 5)))
# "a node's normalized offset lies in its image, which begins at its start plus earlier drift"
case('6 offset at the end of the image', 6, offset(3))
case('6 offset at the end of the image of a BlockLeaf', 6, offset(7, 1))
# two nodes over 0..2 and 2..3: the drift of the first is 1, so the second image is 3..6
def second(o): b = spans('aab', inline(0, 2, 5), inline(2, 3, 5)); b.nodes[0].off, b.nodes[1].off = 0, o; return b
case('6 offset one before the begin of the image', 6, second(2))
case('6 offset at the end of the second image', 6, second(6))
# "Pairs: open and close non-empty, open end ≤ close start, inside the text"
case('6 pair with an empty open', 6, but(plain('aa'), pairs=[(0, 0, 0, 1, 2)]))
case('6 pair with an empty close', 6, but(plain('aa'), pairs=[(0, 0, 1, 2, 2)]))
case('6 pair whose open ends behind the start of its close', 6, but(plain('aaa'), pairs=[(0, 0, 2, 1, 3)]))
case('6 pair past the text', 6, but(plain('aa'), pairs=[(0, 0, 1, 1, 3)]))
# "Containers: open < close < normalized length"
case('6 container with open = close', 6, but(plain('aa'), containers=[(0, 1, 1)]))
case('6 container with close = normalized length', 6, but(plain('aa'), containers=[(0, 0, 2)]))
case('6 container of a longer text, close past the normalized text', 6, but(book('aaaaa', nodes=[inline(0, 5, 5)]), containers=[(0, 0, 4)]))
# "Diagnostics: non-empty, inside"; document 02, wish 5: "start equal to end become well formed, also at the text's end"
case('6 diagnostic that ends before it starts', 6, marked('a', (0, 0, 1, 0, 0)))
case('6 diagnostic past the text', 6, marked('a', (0, 0, 0, 2, 0)))
case('6 diagnostic that starts past the text and ends in it', 6, marked('a', (0, 0, 2, 1, 0)))
case('6 before 7: a diagnostic that ends before it starts, and a normalized text one too long', 6, but(plain('a'), norm=b'aa', diags=[(0, 0, 1, 0, 0)]))
case('6 mark of no width one past the text', 6, marked('a', mark(2)))
case('6 mark of no width one past a text of no bytes', 6, marked('', mark(1)))
case('6 mark of no width at 4294967295', 6, marked('a', mark(NONE)))
case('6 mark of no width one past the text, behind two that are not', 6, marked('a', mark(1), mark(0), mark(2)))
case('6 mark of no width one past the text, within the normalized text', 6, but(one(), diags=[mark(2)]))
# "Condition 6 changes for diagnostics only"
case('6 empty span at the end of the text', 6, spans('a', inline(1, 1, 5)))
case('6 empty span in a text of no bytes', 6, spans('', inline(0, 0, 5)))
case('6 pair with nothing in its open and close', 6, but(plain('aa'), pairs=[(0, 1, 1, 1, 1)]))
case('6 pair with nothing in its open and close, in a text of no bytes', 6, but(empty(), pairs=[(0, 0, 0, 0, 0)]))

# ---- 7: "Normalized length = text length + all drift"
case('7 normalized text one too long', 7, but(empty(), norm=b'a'))
case('7 normalized text one too short', 7, but(plain('a'), norm=b''))
case('7 image of 3 where a BlockLeaf has 7', 7, but(one(cls=1), norm=b'nnn'))
case('7 image of 7 where a BlockOpen with inline 1 has 3', 7, but(one(kind=0, cls=2, inl=1), norm=b'nnnnnnn'))

# ---- accepted; a start that is offset, id and start at once, and a length
case('empty book of one layer', 0, empty())
case('two layers, 1 as a reading', 0, but(empty(), layers=[Layer(), Layer()]))
case('32 layers', 0, but(empty(), layers=[Layer() for _ in range(32)]))
case('32 levels', 0, nest(32), 32, 1)
case('book of P4', 0, plain(abc), 4, 4)
P5 = ruby()
case('reading of P5', 0, P5, 0, 2)
case('reading of P5, the end of the Ruby', 0, P5, 2, 0)
case('reading of P5, behind the pools', 0, P5, 3, 0)
def result():
    """P5: a second layer with the reading's strings and contents, and the Ruby at 4..6"""
    b = but(book('aa\n\nxb\n\ncc', nodes=[inline(4, 6, 1, 0, [0, 1, 1, 1])]), layers=[Layer()])
    b.layers.append(ruby().layers[0])
    return b
case('result of P5', 0, result(), 1, 1)
case('result of P5, the start of the Ruby', 0, result(), 4, 1)
case('result of P5, the last byte of the Ruby', 0, result(), 5, 0)
case('ids into a newer layer', 0, one(14, 0, [0, 1], ['a'], [P(1)], layers=[Layer(['é'.encode()], [P(0)])]), 1, 1)
case('ids into a newer layer, a range across layers', 0, one(14, 0, [0, 1], ['a'], [P(1)], layers=[Layer([b'b'], [P(0)])]), 0, 2)
case('empty range between two layers', 0, one(14, 0, [1, 0], [''], [P(0)], layers=[Layer([], [P(0)])]), 1, 0)
case('empty range at the end of the pool', 0, one(14, 0, [1, 0], ['a'], [P(0)]), 1, 0)
KINDS = [(1, 0, [0, 1, 0, 1]), (2, 15, [0, 1, 0]), (3, 2, [0, NONE]), (4, 0, []), (5, 0, []), (6, 0, []), (7, 0, []), (8, 0, []), (9, 0, [0, 1]), (10, 0, [0]),
         (11, 2, [0, NONE, NONE, NONE, 0, 1]), (12, 0, [0]), (13, 13, [0]), (14, 0, [0, 1]), (15, 0, [0, 1, 0, 1])]
case('a node of each kind', 0, book('abcdefghijklmno', ['s'], [run(0, 1)], [text()], [inline(i, i + 1, *k) for i, k in enumerate(KINDS)]), 14, 1)
case('a segment of each tag', 0, pools(['a', 'b'], [], [text(1), Seg(1, 0, Body(3, 2, (0, 0), [0, NONE])), Seg(2, 0, Body(13, 0, (0, 0), [0])), node(1)]), 1, 3)
case('an image of each length', 0, book('abcde', nodes=[inline(0, 1, 5), leaf(1, 2, 5), block(2, 2, 3), block(3, 3, 4), block(2, 4, 5, 1)]), 3, 0)
case('offset at the first byte of the image', 0, second(3), 1)
case('offset at the last byte of the image', 0, second(5), 2)
case('words that are copied unread', 0, book('a', nodes=[inline(0, 1, 5, plain=(NONE, 1))]), 1)
case('pair whose open ends at the start of its close', 0, but(plain('aa'), pairs=[(4, 0, 1, 1, 2)]))
case('container up to the last normalized byte', 0, but(plain('aa'), containers=[(NONE, 0, 1)]))
case('diagnostics of kinds 0 and 1, not sorted', 0, but(plain('aa'), diags=[(1, 0, 1, 2, 0), (0, NONE, 0, 1, NONE)]))
case('diagnostics of kinds 1 and 2', 0, but(plain('aa'), diags=[(1, 0, 0, 1, 0), (2, 0, 1, 2, 0)]))
case('diagnostic of kind 4', 0, but(plain('a'), diags=[(4, 0, 0, 1, 0)]))
# document 02, wish 5
case('mark of no width at 0', 0, marked('a', mark(0)))
case("mark of no width at the text's end", 0, marked('a', mark(1)))
case('mark of no width in a text of no bytes', 0, marked('', mark(0)))
case('mark of no width inside a character', 0, marked('é', mark(1)))
case('marks of no width of kinds 1 and 2', 0, marked('a', mark(1, kind=1), mark(0, kind=2)))
case('marks of no width of each kind, not sorted, and a diagnostic with a width', 0, marked('aa', *[mark(2 - k // 2, NONE, k, k) for k in range(5)], (0, 0, 0, 2, 0), mark(2)))
case('64 bytes, which fit', 0, plain(b'0123456789abcdef' * 2))
case('65 bytes: 18', 0, book('0123456789abcdef' * 2, ['x']))
case('a tape of 2048 bytes, which fits', 0, pools([''] * 407, layers=[Layer(), Layer()]), 406)
case('a tape of 2049 bytes: 18', 0, pools([''] * 407, layers=[Layer(), Layer(), Layer()]), 407)
