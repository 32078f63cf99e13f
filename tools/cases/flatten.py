"""Wish 6 of document 02, flattening, over the graft of graft.py and the numbers of book.py."""
from book import Refused, check_book, must, within_limits
from gen import Book
from graft import Over, graft
from merge import WORK

def flat(b):
    """the book of one layer; Over where a pool or the layer's strings pass their limit"""
    f = Book(b.text)
    # "the nodes' trees are grafted in order into one fresh layer, nothing unreachable is kept"; "a book without nodes keeps one empty layer"
    f.nodes, g = graft(b, 0, 0, 0)
    f.layers = [g.layer]
    # "texts, spans, lists and trees are equal before and after"
    f.norm, f.pairs, f.containers, f.diags = b.norm, b.pairs, b.containers, b.diags
    return f

def flatten(tape, data, room=(65536, 65536, WORK)):
    """tape and bytes; or Refused, "by 1 to 7 and 18 under their old conditions". room: bytes for both, work words"""
    b = check_book(tape, data)
    must(18, WORK <= room[2])
    try: f = flat(b)
    except Over: raise Refused(18)
    tape, data = f.tape(), f.bytes()
    must(18, within_limits(f) and len(tape) <= room[0] and len(data) <= room[1])
    return tape, data
