#!/usr/bin/env python3
"""special.py: writes oracle/cases, cases made by hand: NAME.in is the input of the program `merge` (document 01, 'Runs'), NAME.out its line, the
Rust's (oracle/build first) or, where a number or a line stands beside the case here, that of documents 01 and 02."""
import os, sys
from small import *

rust = Rust()
out = os.path.join(HERE, '..', '..', 'oracle', 'cases')
os.makedirs(out, exist_ok=True)

def line(answer):
    w = answer.split()
    return f'region {w[1]} {w[2]} reused {w[4]} reread {w[6]} calls {w[8]} probes {w[14]}\n' if w[0] == 'region' else f'refused {w[1]}\n'

def put(name, old, a, e, repl, reading, want=None):
    """want: a number that the Rust has not, or not here; else the Rust answers"""
    data = case_input(old.tape(), old.bytes(), a, e, repl, reading.tape(), reading.bytes())
    says = rust.ask('M', data)
    if not want: assert says.split()[0] in ('region', 'none'), (name, says)
    raw(name, data, f'refused {want}\n' if want else line(says))
    print(name, len(data), 'document 01: %d' % want if want else 'Rust', says[:60])

def raw(name, data, text):
    open(f'{out}/{name}.in', 'wb').write(data)
    open(f'{out}/{name}.out', 'w').write(text)

# ---- worked examples
put('p05', plain(abc), 4, 5, b'x', ruby())
put('p06', plain('aa\n\nbb'), 5, 5, b'x', plain('bxb'))
put('p07', plain('aa\n\nbb'), 3, 3, b'\n', plain('aa\n\n\n'))
put('p08', plain('aa\n'), 3, 3, b'x', plain('x'))
put('p09', plain(''), 0, 0, b'a', plain('a'))
put('p10', plain('abc'), 0, 1, b'x', plain('xbc'))
# ---- 1
cut = plain(abc); cut.tape = lambda t=cut.tape(): t[:-1]
put('n01-cut', cut, 4, 5, b'x', ruby(), 1)
two = ruby(); two.layers.append(Layer()); put('n01-reading-two-layers', plain(abc), 4, 5, b'x', two, 1)
none = plain(abc); none.layers = []; put('n01-no-layer', none, 4, 5, b'x', ruby(), 1)
good = case_input(plain(abc).tape(), plain(abc).bytes(), 4, 5, b'x', ruby().tape(), ruby().bytes())
raw('n01-surplus', good + b'\0', 'refused 1\n'); raw('n01-short', good[:-1], 'refused 1\n'); raw('n01-27-bytes', good[:27], 'refused 1\n'); raw('n01-empty', b'', 'refused 1\n')
# ---- 2
put('n02-text', plain(b'aa\n\nb\x80\n\ncc'), 4, 5, b'x', ruby(), 2)
put('n02-replacement', plain(abc), 4, 5, b'\xff', ruby(), 2)
put('n02-string', plain(abc), 4, 5, b'x', book('xb\n\n', ['x', b'\xed\xa0\x80'], [P(0), P(1)], [], [inline(0, 2, 1, 0, [0, 1, 1, 1])]), 2)
# ---- 3
many = plain(abc); many.layers = [Layer() for _ in range(33)]; put('n03-33-layers', many, 4, 5, b'x', ruby(), 3)
raw('n03-part-65537', W(65537) + bytes(24), 'refused 3\n')
# ---- 4
put('n04-id', plain(abc), 4, 5, b'x', book('xb\n\n', ['x'], [P(0), P(1)], [], [inline(0, 2, 1, 0, [0, 1, 1, 1])]), 4)
across = book(abc, ['a'], [P(0)], [], [inline(0, 2, 14, 0, [0, 2])]); across.layers.append(Layer([], [P(0)])); put('n04-across-layers', across, 4, 5, b'x', ruby(), 4)
# ---- 5
def nest(levels, top):
    """a chain of AngleQuotes: segment i has level i + 1 and holds segment i - 1"""
    segs = [Seg(0, 0, Body(0, 0, (0, 0), [0]))] + [Seg(3, i + 1, Body(14, 0, (i, 7), [i, 1])) for i in range(levels)]
    return book('xb\n\n', ['x'], [(1, i, 1) for i in range(levels + 1)], segs, [inline(0, 2, 14, 0, [levels, 1])])
put('n05-33-levels', plain(abc), 4, 5, b'x', nest(33, 33), 5)
put('a-32-levels', plain(abc), 4, 5, b'x', nest(32, 32))
# ---- 6
put('n06-span', plain(abc), 4, 5, b'x', book('xb\n\n', [], [], [], [leaf(2, 2, 5)]), 6)
c = plain(abc); c.containers = [(0, 1, 10)]; put('n06-container', c, 4, 5, b'x', ruby(), 6)
o = book(abc, [], [], [], [leaf(0, 2, 5)]); o.nodes[0].off = 7; put('n06-offset-behind-image', o, 4, 5, b'x', ruby(), 6)
# ---- 7
n = plain(abc); n.norm += b'a'; put('n07', n, 4, 5, b'x', ruby(), 7)
# ---- 8
put('n08-inside', plain('漢\n\nb'), 1, 3, b'x', ruby(), 8)
put('n08-start-behind-end', plain(abc), 5, 4, b'x', ruby(), 8)
put('n08-past', plain(abc), 4, 11, b'x', ruby(), 8)
# ---- 9, 10, 11
put('n09', plain(abc), 4, 5, b'b', ruby())
dep = book('a\n\nb\n\n', ['a'], [P(0)], [], [inline(0, 1, 1, 0, [0, 1, 0, 0]), inline(3, 4, 2, 4, [0, 1])])
put('n10', dep, 3, 3, b'x', plain('xb\n\n'))
put('a-format-ends-at-edit', dep, 4, 4, b'x', plain('bx\n\n'))
# ---- 12
put('n12', plain(abc), 4, 5, b'x', plain('xc\n\n'), 12)
# ---- document 02, wish 1: the blank line before the end of the Rust's region is gone
put('n11-blank-line-lost', plain('aa\n\nbb'), 2, 3, b'x', plain('aax\n'), 11)
put('n12-blank-line-lost', plain(abc), 2, 3, b'x', plain('aax\n'), 12)
raw('a-blank-line-lost', case_input(plain(abc).tape(), plain(abc).bytes(), 2, 3, b'x', plain('aax\nbb\n\n').tape(), plain('aax\nbb\n\n').bytes()), 'region 0 8 reused 0 reread 0 calls 0 probes 0\n')
put('a-blank-line-kept', plain(abc), 2, 3, b'x\n', plain('aax\n\n'))
# ---- 13
put('n13-block', plain(abc), 4, 5, b'x', book('xb\n\n', nodes=[block(2, 0, 1)]))
put('n13-warichu-close', plain(abc), 4, 5, b'x', book('xb\n\n', ['x'], nodes=[inline(0, 1, 13, 5, [0]), inline(1, 2, 13, 4, [0])]))
# ---- 14
d = plain('xb\n\n'); d.diags = [(3, 0, 0, 1, 0)]; put('n14', plain(abc), 4, 5, b'x', d)
# ---- document 02, wish 5: marks of no width
put('n06-mark-past-the-text', marked(abc, mark(11)), 4, 5, b'x', ruby(), 6)
put('n14-mark-at-empty-region', marked('aa\n', mark(3)), 3, 3, b'x', plain('x'), 14)
put('a-mark-before-empty-region', marked('aa\n', mark(2)), 3, 3, b'x', marked('x', mark(0), mark(1)))
m = ruby(); m.diags = [mark(4, 6), mark(0, 7)]; put('a-marks-at-the-cuts', marked(abc, mark(10, 1), mark(8, 2), mark(5, 3), mark(4, 4), mark(0, 5)), 4, 5, b'x', m)
# ---- 15
put('n15-ruby-before-format', book(abc, ['c'], [P(0)], [], [inline(8, 9, 2, 4, [0, 1])]), 4, 5, b'x', ruby())
put('n15-format-behind-ruby', book(abc, ['x'], [P(0)], [], [inline(0, 2, 1, 0, [0, 1, 0, 0])]), 4, 5, b'x', book('xb\n\n', ['x'], [P(0)], [], [inline(0, 2, 2, 4, [0, 1])]))
# ---- 16
s = plain('aaa\n\nb'); s.norm = '漢漢'.encode(); put('n16', s, 5, 6, b'x', plain('x'))
# ---- 17
full = plain(abc); full.layers = [Layer() for _ in range(32)]; put('n17', full, 4, 5, b'x', ruby(), 17)
put('a-32-layers-no-node', full, 4, 5, b'x', plain('xb\n\n'))
near = plain(abc); near.layers = [Layer() for _ in range(31)]; put('a-31-layers', near, 4, 5, b'x', ruby())
# ---- 18
long = plain(b'aa\n\n' + b'b' * 32764); put('n18-bytes', long, 0, 0, b'x', plain('xaa\n\n'), 18)
def many_strings(k): return book('xb\n\n', ['%04x' % i for i in range(k)], [P(i) for i in range(k)], [], [inline(0, 2, 14, 0, [0, k])])
put('n18-3584-strings', plain(abc), 4, 5, b'x', many_strings(3584), 18)
put('a-3583-strings', plain(abc), 4, 5, b'x', many_strings(3583))
def doubling(levels):
    """AngleQuotes one in another, each holding the one below twice: few records, 2 to the power of the levels when grafted"""
    segs = [Seg(0, 0, Body(0, 0, (0, 0), [0]))] + [Seg(3, i, Body(14, 0, (0, i), [2 * i - 2, 2])) for i in range(1, levels + 1)]
    return book('xb\n\n', ['x'], [(1, i // 2, 1) for i in range(2 * levels + 2)], segs, [inline(0, 2, 14, 0, [2 * levels, 1])])
put('a-doubling-9', plain(abc), 4, 5, b'x', doubling(9))
put('n18-doubling-10', plain(abc), 4, 5, b'x', doubling(10), 18)
d = doubling(32); raw('n18-doubling-32', case_input(plain(abc).tape(), plain(abc).bytes(), 4, 5, b'x', d.tape(), d.bytes()), 'refused 18\n')  # the Rust would need 2 to the 32 segments
# ---- accepted
def strings(ss, ids): return book('xb\n\n', ss, [P(i) for i in ids], [], [inline(0, 2, 14, 0, [0, len(ids)])])
put('a-grows-at-225', plain(abc), 4, 5, b'x', strings(['%02x' % i for i in range(224)], list(range(224)) + [0]))
put('a-224-no-growth', plain(abc), 4, 5, b'x', strings(['%02x' % i for i in range(224)], list(range(224)) + [223]))
put('a-64-bytes', plain(abc), 4, 5, b'x', strings(['a' * 64, 'b'], [0, 1, 0]))
put('a-65-bytes', plain(abc), 4, 5, b'x', strings(['a' * 65, 'b'], [0, 0, 1, 0]))
put('a-mencode-before-hint', plain(abc), 4, 5, b'x', book('xb\n\n', ['hint', 'men'], [], [], [inline(0, 1, 3, 2, [0, 1]), inline(1, 2, 3, 2, [0, NONE], (9, 8))]))
put('a-target-before-payload', plain(abc), 4, 5, b'x', book('xb\n\n', ['p', 't'], [P(1)], [], [inline(0, 2, 2, 15, [0, 1, 0], (5, 6))]))
put('a-illustration', plain(abc), 4, 5, b'x', book('xb\n\n', ['f', 'n', 'd', 'w', 'c'], [], [Seg(0, 0, Body(0, 0, (1, 2), [4]))], [leaf(0, 1, 11, 2, [0, 1, 2, 3, 0, 1]), leaf(1, 2, 11, 1, [0, NONE, NONE, NONE, 4])]))
old = book(abc, ['x', 'b'], [P(0)], [], [inline(0, 2, 14, 0, [0, 1])])
put('a-older-strings-not-found', old, 4, 5, b'x', ruby())
c = plain(abc); c.containers = [(1, 0, 3), (2, 0, 4), (3, 2, 5), (4, 7, 9), (5, 8, 9)]; put('a-containers-at-edges', c, 4, 5, b'x', ruby())
d = plain(abc); d.diags = [(4, 2, 8, 9, 1), (0, 2, 0, 1, 2), (0, 1, 0, 1, 3), (1, 2, 0, 1, 4), (0, 0, 3, 5, 5), (0, 0, 7, 9, 6), (4, 0, 3, 4, 7)]
r = ruby(); r.diags = [(4, 9, 0, 4, 8), (0, 3, 0, 1, 9)]; put('a-diagnostics', d, 4, 5, b'x', r)
put('a-block-only', plain(abc), 4, 5, b'x', book('xb\n\n', nodes=[block(2, 0, 1, 0, (3, 4)), block(3, 1, 2, 1)]))
put('a-japanese', plain('漢字\n\nあ\n\n字'), 8, 11, '漢'.encode(), book('漢\n\n', ['漢', 'かん'], [P(0), P(1)], [], [inline(0, 3, 1, 0, [0, 1, 1, 1])]))
w = book('a\n\nb\n\nc\n\nd', ['w'], [], [], [inline(0, 1, 13, 4, [0]), inline(6, 7, 13, 5, [0])]); put('a-warichu-depth', w, 3, 4, b'x', plain('a\n\nx\n\nc\n\n'))
b = book('a\n\nb\n\nc\n\nd', [], [], [], [block(3, 0, 1), block(2, 3, 4), block(3, 6, 7)]); put('a-depth-below-0', b, 6, 7, b'x', plain('b\n\nx\n\n'))
p = plain('a\n\nb\n\nc\n\nd'); p.pairs = [(1, 0, 1, 3, 4), (0, 3, 4, 9, 10)]; put('n11-pair-across', p, 3, 4, b'x', plain('a\n\nx\n\nc\n\nd'))
p = plain('a\n\nb\n\nc\n\nd'); p.pairs = [(4, 0, 1, 3, 4), (3, 9, 10, 9 + 0, 10)] [:1]; put('a-pair-ends-at-cut', p, 6, 7, b'x', plain('x\n\n'))
z = book('xb\n\n', ['x'], [P(0)], [], [inline(0, 2, 1, 0, [1, 0, 0, 1]), inline(2, 3, 9, 0, [0, 0])]); put('a-empty-range', plain(abc), 4, 5, b'x', z)
y = book(abc, ['a'], [P(1)], [], [inline(0, 2, 14, 0, [0, 1]), inline(8, 10, 15, 0, [0, 1, 1, 1], (4294967295, 1))]); y.layers.append(Layer([b'newer'], [P(0)])); put('a-ids-into-newer-layers', y, 4, 5, b'x', ruby())
print(len(os.listdir(out)) // 2, 'cases')
