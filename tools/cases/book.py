"""Section 4 of document 01 and its numbers 1 to 7, with wish 5 of document 02: a tape and its bytes read as a book of gen.py, or refused."""
from gen import NONE, Body, Book, Layer, Node, Seg
from graft import POOL, fields

class Refused(Exception):
    def __init__(s, number): s.number = number

def must(number, holds):
    if not holds: raise Refused(number)

# ---- 1

class Reader:
    def __init__(s, data): s.data, s.at = data, 0
    def bytes(s, n):
        must(1, s.at + n <= len(s.data))
        s.at += n
        return s.data[s.at - n:s.at]
    def b(s): return s.bytes(1)[0]
    def w(s): return int.from_bytes(s.bytes(4), 'little')
    def words(s, n): return [s.w() for _ in range(n)]
    def body(s): return Body(s.b(), s.b(), s.words(2), s.words(6))
    def every(s, command, record):
        """the records of one command that follow here"""
        out = []
        while s.data[s.at:s.at + 1] == bytes([command]):
            s.at += 1
            out.append(record())
        return out

def body_shaped(b, words=True):
    used = {w for form, i in (fields(b) if words else []) for w in ([i, i + 1] if form in ('contents', 'segments') else [i])}
    return all(w == 0 for i, w in enumerate(b.words) if i not in used)
def tag_shaped(b): return b.tag < {2: 16, 3: 3, 11: 3, 13: 14}.get(b.kind, 1)

def content_shaped(tag, first, second): return tag == 1 or tag == 0 and second == 0
def segment_shaped(s):
    kinds = {0: [0], 1: [3], 2: [13], 3: range(1, 16)}
    return s.body.kind in kinds.get(s.tag, []) and tag_shaped(s.body) and body_shaped(s.body)
def node_shaped(n):
    if n.cls in (0, 1): return n.inline == 0 and n.body.kind in range(1, 16) and tag_shaped(n.body) and body_shaped(n.body)
    return n.cls in (2, 3) and n.inline in (0, 1) and n.body.kind == n.body.tag == 0 and body_shaped(n.body, False)

def read(tape, data):
    r, d, b = Reader(tape), Reader(data), Book()
    must(1, r.b() == 1)
    lengths = r.words(2)
    def layer(): return Layer(r.every(3, r.w), r.every(4, lambda: (r.b(), *r.words(2))), r.every(5, lambda: Seg(r.b(), r.b(), r.body())))
    b.layers = r.every(2, layer)
    b.nodes = r.every(6, lambda: Node(r.b(), r.b(), *r.words(3), r.body()))
    b.pairs = r.every(7, lambda: (r.b(), *r.words(4)))
    b.containers = r.every(8, lambda: tuple(r.words(3)))
    b.diags = r.every(9, lambda: (r.b(), *r.words(4)))
    must(1, r.b() == 10 and r.at == len(tape) and b.layers)
    b.text, b.norm = map(d.bytes, lengths)
    for l in b.layers: l.strings = [d.bytes(n) for n in l.strings]
    must(1, d.at == len(data))
    must(1, all(content_shaped(*c) for l in b.layers for c in l.contents) and all(segment_shaped(s) for l in b.layers for s in l.segments))
    must(1, all(node_shaped(n) for n in b.nodes) and all(p[0] < 5 for p in b.pairs) and all(x[0] < 5 for x in b.diags))
    return b

# ---- 2 and 3

def is_utf8(data):
    try: data.decode('utf-8')
    except UnicodeDecodeError: return False
    return True

def pool(b, name): return [x for l in b.layers for x in getattr(l, name)]

def within_limits(b):
    return len(b.text) <= 16777215 and len(b.norm) <= 16777215 and all(len(pool(b, p)) <= POOL for p in ('strings', 'contents', 'segments')) \
        and all(len(l) <= 262143 for l in (b.nodes, b.pairs, b.containers, b.diags)) and len(b.layers) <= 32

# ---- 4 and 5

def bodies(b): return [s.body for s in pool(b, 'segments')] + [n.body for n in b.nodes if n.cls < 2]

def range_holds(b, name, start, length):
    """inside the pool, and in one layer if it is not empty"""
    ends, count = [], 0
    for l in b.layers:
        ends.append((count, count + len(getattr(l, name))))
        count = ends[-1][1]
    return start + length <= count and (length == 0 or any(first <= start and start + length <= end for first, end in ends))

def ids_hold(b):
    count = len(pool(b, 'strings'))
    def holds(form, words):
        if form == 'id': return words[0] < count
        if form == 'missing': return words[0] < count or words[0] == NONE
        return range_holds(b, form, *words[:2])
    return all(holds(form, x.words[i:]) for x in bodies(b) for form, i in fields(x)) \
        and all(holds(['id', 'segments'][tag], words) for tag, *words in pool(b, 'contents'))

def levels_hold(b):
    contents, segments = pool(b, 'contents'), pool(b, 'segments')
    def inner(body):
        """the levels in the segment runs that the contents or the caption name"""
        for form, i in fields(body):
            start, length = body.words[i:i + 2] if form in ('contents', 'segments') else (0, 0)
            runs = [(1, start, length)] if form == 'segments' else contents[start:start + length]
            for tag, first, n in runs:
                if tag == 1: yield from (s.level for s in segments[first:first + n])
    return all(s.level == 0 if s.tag < 3 else 1 <= s.level <= 32 and all(l < s.level for l in inner(s.body)) for s in segments)

# ---- 6 and 7

def drift(nodes): return sum(n.image() - (n.end - n.start) for n in nodes)

def places_hold(b):
    at = moved = 0
    for n in b.nodes:
        if not (at <= n.start < n.end <= len(b.text) and n.start + moved <= n.off < n.start + moved + n.image()): return False
        at, moved = n.end, moved + drift([n])
    return all(a < e <= c < d <= len(b.text) for _, a, e, c, d in b.pairs) and all(o < c < len(b.norm) for _, o, c in b.containers) \
        and all(a <= e <= len(b.text) for _, _, a, e, _ in b.diags)  # document 02, wish 5: a diagnostic may have no width

def check_book(tape, data):
    b = read(tape, data)
    must(2, all(map(is_utf8, [b.text, b.norm] + pool(b, 'strings'))))
    must(3, within_limits(b))
    must(4, ids_hold(b))
    must(5, levels_hold(b))
    must(6, places_hold(b))
    must(7, len(b.norm) == len(b.text) + drift(b.nodes))
    return b

def check_reading(tape, data):
    """1 also where it has not exactly one layer"""
    must(1, len(read(tape, data).layers) == 1)
    return check_book(tape, data)
