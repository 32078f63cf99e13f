"""Cases of numbers 8 to 11 and of the region, with wish 1 of document 02: label, book, edit, replacement, and the answer, a number or the region's start and end."""
from small import *
from tape_cases import but, node, offset, pools

cases = []
def case(label, b, start, end, replacement, answer): cases.append((label, b, start, end, replacement, answer))

# ---- worked examples
case('P4', plain(abc), 4, 5, b'x', (4, 8))
case('P6', plain('aa\n\nbb'), 5, 5, b'x', (4, 6))
case('P7', plain('aa\n\nbb'), 3, 3, b'\n', (0, 4))
case('P8', plain('aa\n'), 3, 3, b'x', (3, 3))
case('P9', plain(''), 0, 0, b'a', 11)
case('P10', plain('abc'), 0, 1, b'x', 11)

# ---- the old book first: "old book 1 to 7, rising; edit 8; replacement 2, new text 3; 9, 10, 11"
case('1 before 8', but(plain(''), tail=b'\0'), 1, 0, b'x', 1)
case('2 of the book before 8', plain(b'\x80'), 1, 0, b'x', 2)
case('3 of the book before 8', but(plain(''), layers=[Layer() for _ in range(33)]), 1, 0, b'x', 3)
case('4 before 8', pools(contents=[(0, 0, 0)]), 1, 0, b'x', 4)
case('5 before 8', pools(segments=[node(0)]), 1, 0, b'x', 5)
case('6 before 8', offset(3), 1, 0, b'x', 6)
case('7 before 8', but(plain(''), norm=b'a'), 1, 0, b'x', 7)

# ---- 8: "edit start > end, end > length, or inside a character"
case('8 start behind the end', plain(abc), 5, 4, b'x', 8)
case('8 end one past the text', plain(abc), 4, 11, b'x', 8)
case('8 end 4294967295', plain(abc), 4, NONE, b'x', 8)
case('8 start inside a character', plain('é\n\nb'), 1, 2, b'x', 8)
case('8 end inside a character', plain('é\n\nb'), 0, 1, b'x', 8)
case('8 before 2', plain(abc), 5, 4, b'\xff', 8)

# ---- 2: "replacement isn't UTF-8"
case('2 replacement', plain(abc), 4, 5, b'\x80', 2)
case('2 replacement cut short', plain(abc), 4, 5, b'\xc3', 2)
case('2 before 11', plain('abc'), 0, 1, b'\x80', 2)

# ---- 9: "new text equals old"
case('9 the same byte', plain(abc), 4, 5, b'b', 9)
case('9 nothing for nothing', plain(abc), 4, 4, b'', 9)
case('9 before 11', plain('abc'), 0, 1, b'a', 9)
case('the same byte twice is another text', plain(abc), 4, 5, b'bb', (4, 8))

# ---- 10: `has_ruby_format_dependency`: an inline Format, kind 2, whose origin is Referenced (tags 4 to 7), that ends behind the edit's start
# and whose target is the base of an earlier inline Ruby, kind 1; "a range of exactly one Plain content gives its string, all others none"
T = 'a\n\nb\n\nc\n\nd'
def linked(*nodes, text=T):
    """contents 0 and 1 are "a" by two ids, 2 is "b", 3 is a segment"""
    return book(text, ['a', 'a', 'b'], [P(0), P(1), P(2), (1, 0, 1)], [Seg(0, 0, Body(0, 0, (0, 0), [0]))], nodes)
def R(at, base=0, count=1, cls=0): return Node(cls, 0, at, at + 1, 0, Body(1, 0, (0, 0), [base, count, 0, 0]))
def F(at, target=0, count=1, tag=4, cls=0): return Node(cls, 0, at, at + 1, 0, Body(2, tag, (0, 0), [target, count]))
case('10', linked(R(0), F(3)), 3, 3, b'x', 10)
case('10 by equal strings of two ids', linked(R(0), F(3, 1)), 3, 3, b'x', 10)
case('10 by the second of two Rubies', linked(R(0, 2), R(3), F(6)), 6, 6, b'x', 10)
case('10 behind the edit', linked(R(3), F(6)), 0, 0, b'x', 10)
case('10 by tag 7', linked(R(0), F(3, tag=7)), 3, 3, b'x', 10)
case('the Format ends at the start of the edit', linked(R(0), F(3)), 4, 4, b'x', (3, 6))
case('the Format has another target', linked(R(0), F(3, 2)), 3, 3, b'x', (3, 6))
case('the Format is not Referenced, tag 3', linked(R(0), F(3, tag=3)), 3, 3, b'x', (3, 6))
case('the Format is not Referenced, tag 8', linked(R(0), F(3, tag=8)), 3, 3, b'x', (3, 6))
case('the Ruby is behind the Format', linked(F(0), R(3)), 0, 0, b'x', (0, 3))
case('the Ruby is a BlockLeaf', linked(R(0, cls=1), F(3)), 3, 3, b'x', (3, 6))
case('the Format is a BlockLeaf', linked(R(0), F(3, cls=1)), 3, 3, b'x', (3, 6))
case('base and target are two contents', linked(R(0, 0, 2), F(3, 0, 2)), 3, 3, b'x', (3, 6))
case('base and target are empty', linked(R(0, 0, 0), F(3, 0, 0)), 3, 3, b'x', (3, 6))
case('base and target are segments', linked(R(0, 3), F(3, 3)), 3, 3, b'x', (3, 6))
case('9 before 10', linked(R(0), F(3)), 3, 4, b'b', 9)
case('10 before 11', linked(R(0), F(1), text='ab'), 1, 1, b'x', 10)

# ---- 11: "region would be the whole text"
case('11 edit across the only cut', plain('aa\n\nbb'), 3, 5, b'x', 11)
case('11 no blank line', plain('aa\nbb\ncc'), 3, 5, b'x', 11)

# ---- section 6. "End: the first safe offset after a newline at or behind the edit's end": the newline is at or behind. Replacements that end in
# newlines, so that the blank line of wish 1 is there
case('edit 4..4 in the text of P4', plain(abc), 4, 4, b'x\n\n', (4, 8))
case('edit up to the first newline of two', plain(abc), 4, 6, b'x', (4, 8))
case('edit up to the second newline of two', plain(abc), 4, 7, b'x\n', (4, 8))
case('edit up to the cut', plain(abc), 4, 8, b'x\n\n', (4, 10))
# "Start: the last safe offset after a newline, at or before the edit's start, else 0"
case('edit one before the cut', plain(abc), 3, 4, b'x', (0, 8))
case('region at the end of the text only, one newline', plain('a\n'), 2, 2, b'x', (2, 2))
case('region at the end of the text only, two newlines', plain('a\n\n'), 3, 3, b'x', (3, 3))
case('edit at the end of the text, no newline before it', plain('a\n\nb'), 4, 4, b'x', (3, 4))
case('blank line at the start of the text', plain('\n\nb'), 2, 3, b'x', (2, 3))
case('one newline at the start of the text', plain('\nb'), 1, 2, b'x', 11)
case('three newlines: two cuts', plain('a\n\n\nb'), 3, 3, b'x\n', (3, 4))

# ---- "elsewhere two newline bytes before it, no node across, block and warichu depths 0 .., no pair with open start < offset < close end"
def nodes(*ns): return book(T, ['w'], [], [], ns)
def pair(*p): return but(plain(T), pairs=[(0,) + p])
case('node across a cut', nodes(inline(2, 4, 5)), 4, 5, b'x\n', (0, 6))
case('node that ends at a cut', nodes(inline(1, 3, 5)), 4, 5, b'x\n', (3, 6))
case('node that starts at a cut', nodes(inline(3, 4, 5)), 4, 5, b'x\n', (3, 6))
case('pair across a cut', pair(0, 1, 2, 4), 4, 5, b'x\n', (0, 6))
case('pair that ends exactly at a cut', pair(0, 1, 2, 3), 4, 5, b'x\n', (3, 6))
case('pair that starts exactly at a cut', pair(3, 4, 4, 5), 4, 5, b'x\n', (3, 6))
case('pair across the end cut', pair(4, 5, 6, 7), 4, 5, b'x', (3, 9))
case('pair across all cuts', pair(0, 1, 9, 10), 3, 4, b'x', 11)
# "block and warichu depths 0 (falls below 0 count as 0)"; warichu: Directives, kind 13, of tags 4 and 5
def warichu(tag, at, leaf=0): return Node(leaf, 0, at, at + 1, 0, Body(13, tag, (0, 0), [0]))
case('block depth 1 at two cuts', nodes(block(2, 0, 1), block(3, 6, 7)), 3, 4, b'x', (0, 9))
case('block opened in another block', nodes(block(2, 0, 1), block(2, 3, 4), block(3, 6, 7)), 9, 9, b'x', 11)
case('block depth below 0', nodes(block(3, 0, 1), block(2, 3, 4), block(3, 6, 7)), 6, 7, b'x', (3, 9))
case('warichu depth 1 at two cuts', nodes(warichu(4, 0), warichu(5, 6)), 3, 4, b'x', (0, 9))
case('warichu depth below 0', nodes(warichu(5, 0), warichu(4, 3), warichu(5, 6)), 6, 7, b'x', (3, 9))
case('warichu of class BlockLeaf', nodes(warichu(4, 0, 1), warichu(5, 6, 1)), 3, 4, b'x', (0, 9))
case('block and warichu are two depths', nodes(block(2, 0, 1), warichu(5, 3)), 9, 9, b'x', 11)
case('directive of another tag', nodes(warichu(6, 0)), 3, 4, b'x', (3, 6))
case('characters of three bytes', plain('漢字\n\nあ\n\n字'), 8, 11, '漢'.encode(), (8, 13))

# ---- document 02, wish 1: "an end cut other than the text's end shall also have two newline bytes before its moved place in the new text. The search
# goes on to the next cut"
case('blank line lost, no later cut', plain('aa\n\nbb'), 2, 3, b'x', 11)
case('blank line lost, a later cut', plain(abc), 2, 3, b'x', (0, 8))
case('blank line lost, the first newline taken away', plain(abc), 2, 3, b'', (0, 8))
case('blank line lost, a letter between the newlines', plain(abc), 3, 3, b'x', (0, 8))
case('blank line lost, in the second passage', plain(abc), 4, 7, b'x', (4, 10))
case('blank line lost, the replacement only begins with a newline', plain(abc), 2, 3, b'\nx', (0, 8))
case('two newlines before the cut where it was, not where it is', plain(abc), 2, 3, b'\n\nx', (0, 8))
case('two newlines before the cut where it is, not where it was', plain(abc), 1, 3, b'xyz\n', (0, 4))
case('the replacement ends in a newline', plain(abc), 2, 3, b'x\n', (0, 4))
case('the replacement is a newline', plain(abc), 1, 3, b'\n', (0, 4))
case('one newline of three taken away', plain('a\n\n\nbb\n\nc'), 2, 3, b'', (0, 4))
case('two newlines of three taken away', plain('a\n\n\nbb\n\nc'), 1, 3, b'', (0, 8))
case('three newlines: the first cut is lost, the second stays', plain('a\n\n\nb'), 1, 2, b'x', (0, 4))
case('one byte before the moved cut', plain('\n\nb\n\nc'), 0, 1, b'', (0, 5))
case('one byte before the moved cut, two before the next', plain('\n\n\nbb'), 0, 1, b'', (0, 3))
case('one byte before the moved cut, no later cut', plain('a\n\nb'), 0, 2, b'', 11)
case('a blank line of the new text alone is no cut', plain('aa\nbb\n\ncc'), 2, 2, b'\n', (0, 7))
case("the text's end, its blank line lost", plain('aa\n\nbb\n\n'), 6, 7, b'x', (4, 8))
case("the text's end, one newline before it", plain('aa\n\nbb\n'), 5, 6, b'x', (4, 7))
case("the text's end is the old text's", plain(abc), 10, 10, b'x\n\ny', (8, 10))
case('the next cut has a node across it', nodes(inline(5, 7, 5)), 1, 2, b'x', (0, 9))
case('the next cut has a pair across it', pair(5, 6, 6, 7), 1, 2, b'x', (0, 9))

# ---- document 02, wish 5: its half of 14 is behind 11, so that a region alone is chosen
case('empty region, a mark of no width at its place', marked('aa\n', mark(3)), 3, 3, b'x', (3, 3))
case('11 a text of no bytes, a mark of no width at its place', marked('', mark(0)), 0, 0, b'a', 11)
case('6 before 8: a mark of no width one past the text', marked('', mark(1)), 1, 0, b'x', 6)
