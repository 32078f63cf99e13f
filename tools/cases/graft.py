"""Sections 2 and 5 of document 01 over the books of gen.py: the interner with its seven counts, and the graft of a book's
nodes into one new layer; and the ceiling on probing of document 02, wish 7."""
from gen import NONE, Body, Layer, Node, Seg

POOL = 1048575  # the table, 3: the largest pool
STRINGS = 3583  # the table, 18: the most strings of a new layer

class Over(Exception):
    """the new layer passes a limit of 18"""

# ---- section 2

def fx_hash(data):
    h = 0
    for b in data: h = ((h << 5 | h >> 59) % 2**64 ^ b) * 0x517cc1b727220a95 % 2**64
    return h

COUNTS = ['calls', 'cache hits', 'table hits', 'allocs', 'long', 'resizes', 'probes']

class Interner:
    """slots hold ids; they are there from the table's first use"""
    def __init__(s): s.strings, s.slots, s.occupied, s.last, s.stats = [], [], 0, None, dict.fromkeys(COUNTS, 0)
    def count(s, *names):
        for n in names: s.stats[n] += 1

    def intern(s, string):
        s.count('calls')
        if s.last is not None and s.strings[s.last] == string: s.count('cache hits')
        elif len(string) > 64:
            s.count('long', 'allocs')
            s.last = s.new(string)
        else: s.last = s.by_table(string)
        return s.last

    def new(s, string):
        s.strings.append(string)
        return len(s.strings) - 1

    def by_table(s, string):
        if not s.slots: s.slots = [None] * 256
        elif s.occupied * 8 >= len(s.slots) * 7: s.grow()
        at = fx_hash(string) % len(s.slots)
        s.count('probes')
        while s.slots[at] is not None:
            if s.strings[s.slots[at]] == string:
                s.count('table hits')
                return s.slots[at]
            at = (at + 1) % len(s.slots)
            s.count('probes')
        s.count('allocs')
        s.occupied += 1
        s.slots[at] = s.new(string)
        return s.slots[at]

    def grow(s):
        s.count('resizes')
        old, s.slots = s.slots, [None] * (2 * len(s.slots))
        for id in old:
            if id is None: continue
            at = fx_hash(s.strings[id]) % len(s.slots)
            while s.slots[at] is not None: at = (at + 1) % len(s.slots)
            s.slots[at] = id

# ---- section 4, bodies: what their words are, in the order in which grafting goes over them (section 5)

def fields(body):
    """(form, word): an id, an id that may be missing, a range of contents, a range of segments; a range is two words"""
    kind, tag = body.kind, body.tag
    if kind in (1, 15): return [('contents', 0), ('contents', 2)]
    if kind == 2: return [('contents', 0)] + ([('id', 2)] if tag % 4 > 1 else [])
    if kind == 3: return ([('missing', 1)] if tag == 2 else []) + [('id', 0)]
    if kind in (9, 14): return [('contents', 0)]
    if kind in (0, 10, 12, 13): return [('id', 0)]
    if kind == 11: return [('id', 0), ('missing', 1), ('missing', 2)] + [[], [('id', 4)], [('segments', 4)]][tag] + [('missing', 3)]
    return []

# ---- section 5

class Graft:
    """one new layer above pools of the given sizes; source: the book whose trees are copied"""
    def __init__(s, source, strings, contents, segments):
        s.interner, s.contents, s.segments = Interner(), [], []
        s.below, s.known = (strings, contents, segments), {}
        s.from_strings, s.from_contents, s.from_segments = ([x for l in source.layers for x in getattr(l, p)] for p in ('strings', 'contents', 'segments'))
    @property
    def layer(s): return Layer(s.interner.strings, s.contents, s.segments)

    def string(s, id): return s.below[0] + s.interner.intern(s.from_strings[id])
    def push(s, pool, below, items):
        pool += items
        return [below + len(pool) - len(items), len(items)]
    def content(s, c):
        tag, *words = c
        return (0, s.string(words[0]), 0) if tag == 0 else (1, *s.segment_range(*words))
    def content_range(s, start, length): return s.push(s.contents, s.below[1], [s.content(c) for c in s.from_contents[start:start + length]])
    def segment_range(s, start, length): return s.push(s.segments, s.below[2], [Seg(g.tag, g.level, s.body(g.body)) for g in s.from_segments[start:start + length]])
    def body(s, b):
        words = list(b.words)
        for form, i in fields(b):
            if form == 'contents': words[i:i + 2] = s.content_range(*words[i:i + 2])
            elif form == 'segments': words[i:i + 2] = s.segment_range(*words[i:i + 2])
            elif form == 'id' or words[i] != NONE: words[i] = s.string(words[i])
        return Body(b.kind, b.tag, b.plain, words)
    def node(s, n): return Node(n.cls, n.inline, n.start, n.end, n.off, s.body(n.body) if n.cls < 2 else n.body)

    # how often a graft calls `intern`, and how many contents and segments it adds: a range counted once, so that a layer that no pool holds need not be made
    def adds(s, bodies): return together(s.field_adds(form, *b.words[i:i + 2]) for b in bodies for form, i in fields(b))
    def field_adds(s, form, first, length):
        if form in ('contents', 'segments'): return s.range_adds(form, first, length)
        return 0 if form == 'missing' and first == NONE else 1, 0, 0
    def range_adds(s, form, start, length):
        key = form, start, length
        if key not in s.known:
            if form == 'segments': s.known[key] = together([(0, 0, length), s.adds([g.body for g in s.from_segments[start:start + length]])])
            else: s.known[key] = together([(0, length, 0), *((1, 0, 0) if tag == 0 else s.range_adds('segments', a, n) for tag, a, n in s.from_contents[start:start + length])])
        return s.known[key]

def together(counts): return tuple(map(sum, zip((0, 0, 0), *counts)))

def added(source):
    """calls of `intern`, contents and segments of a graft, however many"""
    return Graft(source, 0, 0, 0).adds([n.body for n in source.nodes if n.cls < 2])

def graft(source, strings, contents, segments):
    """the grafted nodes, and the Graft with the new layer; Over where a pool or the new layer's strings pass their limit"""
    g = Graft(source, strings, contents, segments)
    if any(b + n > POOL for b, n in zip(g.below, (0, *added(source)[1:]))): raise Over
    nodes = [g.node(n) for n in source.nodes]
    if len(g.interner.strings) > STRINGS or strings + len(g.interner.strings) > POOL: raise Over
    return nodes, g

# ---- document 02, wish 7: "for every list of intern calls on a fresh layer, probes are at most calls × m"

def intern_calls(source):
    """the list "that grafting makes": the strings of the nodes' trees, one a call, in the order of section 5. Nothing is interned here, so that this list and
    the counts of a graft are found apart"""
    strings, contents, segments = ([x for l in source.layers for x in getattr(l, p)] for p in ('strings', 'contents', 'segments'))
    def content(tag, first, length): return [strings[first]] if tag == 0 else run('segments', first, length)
    def run(form, first, length):
        if form == 'contents': return [s for c in contents[first:first + length] for s in content(*c)]
        if form == 'segments': return [s for g in segments[first:first + length] for s in body(g.body)]
        return [] if form == 'missing' and first == NONE else [strings[first]]
    def body(b): return [s for form, i in fields(b) for s in run(form, *b.words[i:i + 2])]
    return [s for n in source.nodes if n.cls < 2 for s in body(n.body)]

def distinct_short(calls):
    """m: "the number of distinct strings of at most 64 bytes among them" """
    return len({s for s in calls if len(s) <= 64})

def ceiling(calls):
    """calls × m; if m is 0 that is the 0 which the wish asks for"""
    return len(calls) * distinct_short(calls)

def within_ceiling(source, calls, probes):
    """are these the two counts that the list of this source's calls has on a fresh layer, and are they under its ceiling?"""
    made, fresh = intern_calls(source), Interner()
    for s in made: fresh.intern(s)
    return calls == len(made) and probes == fresh.stats['probes'] and probes <= ceiling(made)
