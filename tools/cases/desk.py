"""Wish 4 of document 02: the merge for a desk, over the merge of merge.py."""
from book import must
from merge import WORK, merge

DESKS, MOST = 64, 4294967295

def merge_for_desk(desk, ledger, *case, room=(65536, 65536, WORK)):
    """what the merge gives, and the ledger behind it; or Refused: 19 before all else, 20 behind it"""
    must(19, desk < DESKS and len(ledger) == DESKS)
    tape, data, answer = merge(*case, room=room)
    total = ledger[desk] + answer[3]
    must(20, total <= MOST)
    return tape, data, answer, ledger[:desk] + [total] + ledger[desk + 1:]

# ---- a list of calls

def totals(first, charges):
    """what the wish promises of a list: the first ledger, and to each total its own accepted rereads, given as desk and reread"""
    return [total + sum(n for desk, n in charges if desk == i) for i, total in enumerate(first)]
