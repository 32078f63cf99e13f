#!/usr/bin/env python3
"""Random cases for document 01's `merge`, answered by the Rust (oracle/build first). gen.py SEED COUNT OUT.json [deep|collide|dep] writes them.
Each case: the five parts, and what is expected: the Rust's answer, or the number that document 01 gives to a damage made on purpose."""
import json, os, random, struct, subprocess, sys

HERE = os.path.dirname(os.path.abspath(__file__))
ORACLE = os.environ.get('ORACLE', os.path.join(HERE, '..', '..', 'target', 'oracle', 'checked', 'oracle'))
NONE = 0xffffffff
W = lambda n: struct.pack('<I', n)

class Rust:
    def __init__(self):
        self.p = subprocess.Popen([ORACLE, '--lines'], stdin=subprocess.PIPE, stdout=subprocess.PIPE, text=True)
    def ask(self, mode, data):
        self.p.stdin.write(mode + ' ' + data.hex() + '\n'); self.p.stdin.flush()
        return self.p.stdout.readline().rstrip('\n')

# ---- books

class Body:
    def __init__(s, kind=0, tag=0, plain=(0, 0), words=None):
        s.kind, s.tag, s.plain, s.words = kind, tag, list(plain), (list(words) + [0] * 6)[:6] if words else [0] * 6
    def out(s): return bytes([s.kind, s.tag]) + b''.join(map(W, s.plain + s.words))

class Seg:
    def __init__(s, tag, level, body): s.tag, s.level, s.body = tag, level, body
    def out(s): return bytes([5, s.tag, s.level]) + s.body.out()

class Node:
    def __init__(s, cls, inline, start, end, off, body): s.cls, s.inline, s.start, s.end, s.off, s.body = cls, inline, start, end, off, body
    def pad(s): return 0 if s.cls == 0 else 2 if s.cls == 1 or s.inline == 0 else 0
    def image(s): return 3 + 2 * s.pad()
    def out(s): return bytes([6, s.cls, s.inline]) + W(s.start) + W(s.end) + W(s.off) + s.body.out()

class Layer:
    def __init__(s, strings=(), contents=(), segments=()): s.strings, s.contents, s.segments = list(strings), list(contents), list(segments)

class Book:
    def __init__(s, text=b''):
        s.text, s.norm, s.layers, s.nodes, s.pairs, s.containers, s.diags = text, text, [Layer()], [], [], [], []
        s.tail, s.extra = b'', b''
    def tape(s):
        o = [b'\x01', W(len(s.text)), W(len(s.norm))]
        for l in s.layers:
            o.append(b'\x02')
            o += [b'\x03' + W(len(x)) for x in l.strings]
            o += [bytes([4, t]) + W(a) + W(b) for t, a, b in l.contents]
            o += [x.out() for x in l.segments]
        o += [n.out() for n in s.nodes]
        o += [bytes([7, k]) + b''.join(map(W, ws)) for k, *ws in s.pairs]
        o += [b'\x08' + b''.join(map(W, ws)) for ws in s.containers]
        o += [bytes([9, k]) + W(r) + W(a) + W(b) + W(p) for k, r, a, b, p in s.diags]
        return b''.join(o) + b'\x0a' + s.tail
    def bytes(s): return s.text + s.norm + b''.join(x for l in s.layers for x in l.strings) + s.extra

def case_input(tape, data, start, end, repl, rtape, rdata):
    return b''.join([W(len(tape)), W(len(data)), W(start), W(end), W(len(repl)), W(len(rtape)), W(len(rdata)), tape, data, repl, rtape, rdata])

CHARS = ['a', 'b', 'x', ' ', '漢', '字', 'あ', 'é', '𠮷', '《', '》']
STRINGS = ['', 'a', 'b', 'ab', 'x', '漢', '字', 'あ', '\0', 'é', '\x01', 'ba', 'c', 'd', 'e', '漢字']

# strings whose first slots of 256 are 253, 254, 255 and 0: probes that go on, also around the table's end
def slot(b):
    h = 0
    for x in b: h = ((h << 5 | h >> 59) & (1 << 64) - 1 ^ x) * 0x517cc1b727220a95 & (1 << 64) - 1
    return h % 256
COLLIDE = []
for want, many in [(255, 5), (254, 3), (253, 2), (0, 3), (1, 1)]:
    COLLIDE += [b for b in (b'%c%c' % (i, j) for i in range(97, 123) for j in range(97, 123)) if slot(b) == want][:many]

class Gen:
    def __init__(g, seed, rust, mode=''):
        g.mode = mode
        g.r, g.rust = random.Random(seed), rust
        g.dep = mode == 'dep' or mode == '' and g.chance(.2)  # a case about rubies and formats that depend
    def chance(g, p): return g.r.random() < p
    def u32(g):
        return g.r.choice([0, 1, 2, 3, 250, 65536, 0xffffffff, g.r.getrandbits(32), g.r.getrandbits(8)])
    def plain(g): return (g.u32(), g.u32()) if g.chance(.5) else (0, 0)

    def text(g, most=7):
        out = ''
        for _ in range(g.r.randint(0 if g.chance(.2) else 2, most)):
            out += ''.join(g.r.choice(CHARS) for _ in range(g.r.randint(0, 5)))
            out += g.r.choice(['\n\n', '\n\n', '\n\n', '\n', '\n\n\n', ''])
        return out.encode()

    def string(g):
        if g.mode == 'collide': return g.r.choice(COLLIDE)
        if g.dep and g.chance(.8): return g.r.choice([b'a', b'b', '漢'.encode()])
        if g.chance(.08): return g.r.choice([b'a' * 64, b'a' * 65, b'b' * 65, ('漢' * 22).encode(), b'a' * 63, b'\0' * 65])
        return g.r.choice(STRINGS).encode()

    # the pools: counts first, then segments' tags and levels, then contents, then bodies
    def store(g, nlayers, most):
        r = g.r
        ns = [r.choice([0, 1, 2, 3, most] if not g.dep else [2, 3]) for _ in range(nlayers)]
        nc = [r.choice([0, 1, 2, 3, most]) for _ in range(nlayers)]
        ng = [r.choice([0, 0, 1, 2, most]) for _ in range(nlayers)]
        if g.mode == 'deep': ns = [r.randint(1, 4) for _ in ns]; nc = [r.randint(2, 6) for _ in nc]; ng = [r.randint(2, 6) for _ in ng]
        if g.mode == 'collide': ns = [r.randint(4, 9) for _ in ns]; nc = [r.randint(4, 9) for _ in nc]
        if sum(ns) == 0: nc = [0] * nlayers; ng = [0] * nlayers
        g.ns, g.nc, g.ng = ns, nc, ng
        deep = g.chance(.05)
        g.segs = []
        for _ in range(sum(ng)):
            tag = r.choice([0, 0, 1, 2, 3, 3] if g.mode != 'deep' else [0, 1, 2, 3, 3, 3])
            g.segs.append(Seg(tag, 0 if tag < 3 else r.choice([32, 31, 17]) if deep and g.chance(.5) else r.choice([1, 1, 2, 2, 3, 5]), None))
        g.conts = []
        for _ in range(sum(nc)):
            if g.chance(.9 if g.dep or g.mode == 'collide' else .25 if g.mode == 'deep' else .6): g.conts.append((0, r.randrange(sum(ns)), 0))
            else: g.conts.append((1,) + g.range_in(ng, 2))
        for s in g.segs:
            if s.tag == 0: s.body = Body(0, 0, g.plain(), [r.randrange(sum(ns))])
            else: s.body = g.body({1: 3, 2: 13}.get(s.tag), s.level if s.tag == 3 else 99)
        strings = [g.string() for _ in range(sum(ns))]
        layers, a, b, c = [], 0, 0, 0
        for i in range(nlayers):
            layers.append(Layer(strings[a:a + ns[i]], g.conts[b:b + nc[i]], g.segs[c:c + ng[i]]))
            a += ns[i]; b += nc[i]; c += ng[i]
        return layers
    def range_in(g, counts, most):
        r = g.r
        full = [i for i, n in enumerate(counts) if n]
        if not full or g.chance(.12): return (r.randint(0, sum(counts)), 0)
        i = r.choice(full)
        start = r.randrange(counts[i])
        return (sum(counts[:i]) + start, r.randint(0 if g.chance(.1) else 1, min(most, counts[i] - start)))
    def high(g, a, n): return max([s.level for s in g.segs[a:a + n]], default=-1)
    def crange(g, level):
        for _ in range(12):
            a, n = g.range_in(g.nc, 6 if g.mode == 'collide' else 3 if g.chance(.2) or g.mode == 'deep' else 1)
            if all(t == 0 or g.high(x, y) < level for t, x, y in g.conts[a:a + n]): return [a, n]
        return [g.r.randint(0, sum(g.nc)), 0]
    def srange(g, level):
        for _ in range(12):
            a, n = g.range_in(g.ng, 2)
            if g.high(a, n) < level: return [a, n]
        return [g.r.randint(0, sum(g.ng)), 0]
    def sid(g): return g.r.randrange(sum(g.ns))
    def opt(g): return g.sid() if g.chance(.6) else NONE
    def body(g, kind, level):
        r, p = g.r, g.plain()
        if kind is None:
            kind = r.choice([1, 2]) if g.dep else r.choice([1, 14, 15]) if g.mode == 'collide' else r.choice([1, 2, 3, 9, 11, 11, 13, 14, 15, 4]) if g.mode == 'deep' else r.choice([1, 1, 1, 2, 2, 2, 3, 4, 5, 6, 7, 8, 9, 10, 11, 11, 12, 13, 13, 14, 15])
        if sum(g.ns) == 0 and kind in (3, 10, 11, 12, 13): kind = r.choice([1, 4, 5, 6, 7, 8, 9, 14, 15])
        if kind in (1, 15): return Body(kind, 0, p, g.crange(level) + g.crange(level))
        if kind == 2:
            tag = 4 * r.choice([1, 1, 0] if g.dep else [0, 1, 2, 3]) + (r.randrange(4) if sum(g.ns) else r.randrange(2))
            return Body(2, tag, p, g.crange(level) + ([g.sid()] if tag % 4 > 1 else []))
        if kind == 3:
            tag = r.choice([0, 1, 2, 2])
            return Body(3, tag, p, [g.sid(), g.opt() if tag == 2 else 0])
        if kind in (9, 14): return Body(kind, 0, p, g.crange(level))
        if kind in (10, 12): return Body(kind, 0, p, [g.sid()])
        if kind == 11:
            tag = r.randrange(3)
            return Body(11, tag, p, [g.sid(), g.opt(), g.opt(), g.opt()] + ([] if tag == 0 else [g.sid()] if tag == 1 else g.srange(level)))
        if kind == 13: return Body(13, r.choice([0, 1, 2, 3, 4, 5, 6, 7, 13]) if g.chance(.5) else r.choice([4, 5, 0]), p, [g.sid()])
        return Body(kind, 0, p)
    # how many strings, contents and segments grafting a body makes
    def cost(g, b):
        n = 0
        for k, tag, at, form in [(1, None, 0, 'c'), (1, None, 2, 'c'), (15, None, 0, 'c'), (15, None, 2, 'c'), (2, None, 0, 'c'), (9, None, 0, 'c'), (14, None, 0, 'c'), (11, 2, 4, 's')]:
            if b.kind != k or tag is not None and b.tag != tag: continue
            a, m = b.words[at], b.words[at + 1]
            runs = [g.segs[a:a + m]] if form == 's' else [g.segs[x:x + y] for t, x, y in g.conts[a:a + m] if t]
            n += m + sum(1 + g.cost(s.body) for run in runs for s in run)
            if n > 500: return n
        return n + 2

    def boundaries(g, text): return [i for i in range(len(text) + 1) if i == len(text) or text[i] & 0xc0 != 0x80]
    def nodes(g, text, density):
        r = g.r
        marks = g.boundaries(text) if not g.chance(.1) else list(range(len(text) + 1))
        k = min(len(marks), r.randint(0, density) * 2)
        cuts = sorted(r.sample(marks, k))
        out = []
        for a, b in zip(cuts, cuts[1:]):
            if g.chance(.25): continue
            if b - a > 8 and g.chance(.7): b = next((m for m in marks if m > a), b)
            if g.chance(.7) and b"\n\n" in text[a:b]: continue
            cls = r.choice([0] * 7 + [1, 1, 2, 3])
            if cls < 2: out.append(Node(cls, 0, a, b, 0, g.body(None, 99)))
            else: out.append(Node(cls, r.randrange(2), a, b, 0, Body(0, 0, g.plain())))
        return out
    def utf8(g, n):
        out = b''
        while len(out) < n:
            c = g.r.choice(CHARS).encode()
            if len(out) + len(c) <= n: out += c
        return out
    def lay(g, b):
        """normalized text and offsets"""
        out, at = b'', 0
        for n in b.nodes:
            out += b.text[at:n.start]
            n.off = len(out) + (g.r.randrange(n.image()) if g.chance(.3) else n.pad())
            out += b'\n' * n.pad() + bytes([0xee, 0x80, 0x81 + n.cls]) + b'\n' * n.pad()
            at = n.end
        out += b.text[at:]
        try: out.decode(); good = not g.chance(.08)
        except UnicodeDecodeError: good = False
        b.norm = out if good else g.utf8(len(out))
    def span(g, n):
        a = g.r.randrange(n)
        return a, min(n, a + g.r.choice([1, 1, 2, 3, 3, 5, 9]))
    def others(g, b, many, kinds):
        r, n, m = g.r, len(b.text), len(b.norm)
        if n >= 2:
            for _ in range(r.randint(0, many)):
                a, e = g.span(n - 1); c = r.randint(e, n - 1) if g.chance(.3) else min(n - 1, e + r.randint(0, 3))
                b.pairs.append((r.randrange(5), a, e, c, r.randint(c + 1, min(n, c + 3))))
        if m >= 2:
            for _ in range(r.randint(0, many)):
                a = r.randrange(m - 1)
                b.containers.append((g.u32(), a, min(m - 1, a + r.choice([1, 2, 3, 5, 8]))))
        for _ in range(r.choice([0, 1, 2, many, 2 * many, 25 if g.chance(.1) else 3])):
            # document 02, wish 5: some have no width, many of them at the text's ends; in a text of no bytes all
            a, e = g.span(n) if n and g.chance(.7) else (r.choice([0, n, n, r.randint(0, n)]),) * 2
            b.diags.append((r.choice(kinds), r.choice([0, 1, 1, 2, 300, 0xffffffff]), a, e, g.u32()))
        if g.chance(.3): b.diags.sort(key=lambda d: (d[2], d[3], d[1]))

    def book(g, text, nlayers, density, many, most, kinds=(0, 1, 2, 3, 4)):
        b = Book(text)
        b.layers = g.store(nlayers, most)
        b.nodes = g.nodes(text, density)
        b.pool = (g.ns, g.nc, g.ng)
        return b
    def edit(g, text):
        r, marks = g.r, g.boundaries(text)
        a = r.choice(marks)
        if g.chance(.1): a = r.choice([0, len(text)])
        if g.chance(.35): e = a
        elif g.chance(.1): e = r.choice([m for m in marks if m >= a])
        else: e = r.choice([m for m in marks if m >= a][:6])
        s = r.choice(['' if e > a else 'x', 'x', 'a', '漢', 'ab', '\n', '\n\n', 'b\n\na', '漢字あ', '𠮷x'])
        if g.chance(.03): s = text[a:e].decode()
        return a, e, s.encode()

    def balance(g, nodes):
        d = w = 0
        keep = []
        for n in nodes:
            o = n.cls == 2; c = n.cls == 3
            wo = n.cls < 2 and n.body.kind == 13 and n.body.tag == 4; wc = n.cls < 2 and n.body.kind == 13 and n.body.tag == 5
            if c and d == 0 or wc and w == 0: continue
            d += o - c; w += wo - wc
            keep.append(n)
        for n in reversed(keep[:]):
            o = n.cls == 2; wo = n.cls < 2 and n.body.kind == 13 and n.body.tag == 4
            if o and d > 0: d -= 1; keep.remove(n)
            elif wo and w > 0: w -= 1; keep.remove(n)
        return keep

    def reading(g, text):
        while True:
            b = g.book(text, 1, g.r.choice([0, 4, 6, 8, 8]), 3, 6)
            if g.chance(.85): b.nodes = g.balance(b.nodes)
            if sum(g.cost(n.body) for n in b.nodes if n.cls < 2) < 70: break
        g.lay(b)
        g.others(b, 2, (0, 1, 4) if g.chance(.9) else (0, 1, 2, 3, 4))
        return b

    def case(g):
        """old, start, end, replacement, reading, the Rust's answer"""
        old = g.book(g.text(), g.r.choice([1, 1, 2, 3]), g.r.choice([0, 4, 6, 8, 9]), 3, 5)
        if g.chance(.8): old.nodes = g.balance(old.nodes)
        g.lay(old)
        g.others(old, g.r.choice([0, 0, 1, 3]), (0, 1, 2, 3, 4))
        a, e, repl = g.edit(old.text)
        r = g.rust.ask('R', case_input(old.tape(), old.bytes(), a, e, repl, b'', b''))
        if r.startswith('region'):
            s, t = map(int, r.split()[1:])
            new = old.text[:a] + repl + old.text[e:]
            text = new[s:t + len(new) - len(old.text)]
        elif r.startswith('none'): text = b'a\n\n'
        else: raise Exception(r)
        reading = g.reading(text)
        return old, a, e, repl, reading

def blank_line_lost(rust, old, a, e, repl):
    """whether the blank line before the end of the Rust's region is gone in the new text: document 02, wish 1, leaves such edits to the list of differences"""
    r = rust.ask('R', case_input(old.tape(), old.bytes(), a, e, repl, b'', b''))
    cut = int(r.split()[2]) if r.startswith('region') else len(old.text)
    return cut != len(old.text) and not (old.text[:a] + repl + old.text[e:cut]).endswith(b'\n\n')

def mark_at_empty_region(rust, old, a, e, repl):
    """whether the Rust's region is empty and a diagnostic of no width of the old book lies there: document 02, wish 5, refuses such a merge, and the Rust does not"""
    r = rust.ask('R', case_input(old.tape(), old.bytes(), a, e, repl, b'', b'')).split()
    return r[0] == 'region' and r[1] == r[2] and any(d[2] == d[3] == int(r[1]) for d in old.diags)

def finish(rust, name, old, a, e, repl, reading):
    """want: the number that document 02, wish 5, says where the Rust goes on behind its own tests of 14; else None, and the Rust's answer is wanted"""
    ot, ob, rt, rb = old.tape(), old.bytes(), reading.tape(), reading.bytes()
    rustsays = rust.ask('M', case_input(ot, ob, a, e, repl, rt, rb))
    goes_on = rustsays.startswith('region') or rustsays.startswith('none') and 14 < int(rustsays.split()[1])
    want = 14 if goes_on and mark_at_empty_region(rust, old, a, e, repl) else None
    return dict(name=name, tape=ot.hex(), bytes=ob.hex(), start=a, end=e, repl=repl.hex(), rtape=rt.hex(), rbytes=rb.hex(), rust=rustsays, want=want)

if __name__ == '__main__':
    seed, count, out, mode = int(sys.argv[1]), int(sys.argv[2]), sys.argv[3], (sys.argv + [''])[4]
    rust = Rust()
    cases, tally = [], {}
    quota = {'none 11': max(2, count // 12), 'none 10': max(2, count // 12), 'none 9': max(1, count // 20), 'none 13': max(1, count // 10), 'none 14': count // 10, 'mark at an empty region': count // 10,
             'none 15': count // 10, 'none 16': count // 10, 'region': count, 'region, nothing reread': count // 10, 'region, few calls': count // 6}
    if mode in ('deep', 'collide'): quota = {k: 0 for k in quota} | {'region': count}
    if mode == 'dep': quota |= {'none 11': 0, 'none 9': 0, 'none 16': 0, 'none 14': 0, 'none 13': 0, 'none 10': count // 3, 'none 15': count // 3, 'region, nothing reread': 0}
    i = left = 0
    while len(cases) < count:
        i += 1
        case = Gen(seed * 1000003 + i, rust, mode).case()
        if blank_line_lost(rust, *case[:4]):
            left += 1
            continue
        c = finish(rust, f's{seed}{mode}n{i}', *case)
        w = c['rust'].split()
        k = 'mark at an empty region' if c['want'] else ' '.join(w[:2]) if w[0] == 'none' else w[0]
        if k == 'region': k = 'region, nothing reread' if w[6] == '0' or mode == 'deep' and len(w[16]) < 700 or mode == 'collide' and w[14] == w[11] else 'region, few calls' if int(w[8]) < 3 else 'region'
        if tally.get(k, 0) >= quota.get(k, count): continue
        tally[k] = tally.get(k, 0) + 1
        cases.append(c)
    json.dump(cases, open(out, 'w'))
    print(len(cases), 'cases of', i, 'tried,', left, 'left to the list of differences;', tally)
