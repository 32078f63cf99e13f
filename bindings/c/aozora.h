/* The entries of crate `exports`, for C and C++: a corrected passage is merged into the cached parse of a book in Aozora notation.

   Each entry is proved to meet the contract that stands above it in crates/exports/src/lib.rt, on every input: whatever bytes and numbers it is
   given, it answers, and with what documents 01 and 02 say. What C's types cannot say is left to the caller, and is all that is asked of it:

   - a slice goes as a pointer and a length; the pointer is not null, also where the length is 0, and valid for so many items;
   - what is written overlaps with nothing else that is passed.

   The caller lends all memory but some stack: a thread that calls should have 1 MB. Nothing is allocated, and nothing is kept behind a call. A book or a reading is a tape and a byte buffer: docs/FORMAT.md.
   In every answer `number` is 0, or that of the refusal; what an answer does not have is 0.

   Build: (cd crates/exports && rt lib) && cc main.c -I bindings/c -L crates/exports/out -lexports      (x86-64-v2 Linux) */
#ifndef AOZORA_H
#define AOZORA_H

#include <stdbool.h>
#include <stddef.h>
#include <stdint.h>

#ifdef __cplusplus
extern "C" {
#endif

/* How many work words aozora_merge, aozora_merge_for_desk, aozora_merge_both_orders and aozora_flatten_book are lent at least. With two words for
   each node of a book of more than 30,000, a merge's numbers 10 and 15 are faster; with one more for each string, a flattening of a book of many. */
#define AOZORA_WORK_WORDS 16384
/* how many desks there can be (their numbers are 0 to 63), and so how many totals a ledger has */
#define AOZORA_DESKS 64
/* what aozora_estimate tells where one of its three counts is above 1048575: over */
#define AOZORA_OVER 1048576
/* a string id that is missing */
#define AOZORA_NO_STRING 0xFFFFFFFFu

/* Why a call was refused: the table "Returned numbers" of document 01. Tested in this order: the old book, 1 to 7; the edit, 8; the replacement, 2;
   the new text, 3; then 9, 10, 11; the reading, 1 to 7; then 12 to 18. 6 and 14 are as document 02, wish 5 has them. Only aozora_merge_for_desk
   has 19, before all of these, and 20, behind them (wish 4). */
enum aozora_refusal {
    AOZORA_ACCEPTED = 0,
    AOZORA_LAYOUT = 1,                      /* tape or byte buffer breaks the layout; a book without a layer; a reading without exactly one */
    AOZORA_NOT_UTF8 = 2,                    /* a text, normalized text, string or replacement is not UTF-8 */
    AOZORA_OVER_LIMIT = 3,                  /* text or normalized over 16777215 bytes, a pool over 1048575, another list over 262143, layers over 32 */
    AOZORA_ID_OR_RANGE = 4,                 /* an id or range outside its pool, or across layers */
    AOZORA_LEVEL = 5,                       /* levels of segments */
    AOZORA_PLACE = 6,                       /* spans, offsets in images, pairs, containers, diagnostics; of these a diagnostic may have start = end, no other */
    AOZORA_NORMALIZED_LENGTH = 7,           /* normalized length */
    AOZORA_EDIT = 8,                        /* edit start > end, end > length, or inside a character */
    AOZORA_SAME_TEXT = 9,                   /* new text equals old */
    AOZORA_RUBY_FORMAT_DEPENDENCY = 10,     /* has_ruby_format_dependency */
    AOZORA_WHOLE_TEXT = 11,                 /* region would be the whole text */
    AOZORA_OTHER_TEXT = 12,                 /* reading's text differs from the new region's */
    AOZORA_UNBALANCED = 13,                 /* balanced_nodes false */
    AOZORA_UNCLOSED = 14,                   /* reading has a diagnostic of kind 2 or 3; or the region is empty, and the old book has a diagnostic of no width at its place */
    AOZORA_NEW_RUBY_FORMAT_DEPENDENCY = 15, /* introduces_ruby_format_dependency */
    AOZORA_CUT_IN_CHARACTER = 16,           /* a cut falls inside a normalized character */
    AOZORA_LAYERS_FULL = 17,                /* reading has nodes, old book 32 layers; aozora_flatten_book makes them one, with new ids */
    AOZORA_NO_ROOM = 18,                    /* result passes a limit of 3 or has over 3583 new strings, a buffer is too short, under 16384 work words */
    AOZORA_DESK_OR_LEDGER = 19,             /* desk above 63, or a ledger without exactly 64 totals */
    AOZORA_TOTAL_FULL = 20                  /* the desk's total would pass 4294967295 */
};

/* What a number means, and what to look at: for people, not proved. Never null. */
static inline const char *aozora_refusal_message(uint32_t number) {
    switch (number) {
    case AOZORA_ACCEPTED: return "accepted";
    case AOZORA_LAYOUT: return "the tape or the byte buffer is not laid out as a book or a reading: look at the order and the sizes of the records, at kinds, tags and unused words, at the buffer's length, and at the layers (a book has at least one, a reading exactly one)";
    case AOZORA_NOT_UTF8: return "a text, a normalized text, a string or the replacement is not UTF-8: look for a character that was cut in two";
    case AOZORA_OVER_LIMIT: return "a limit is passed: a text may have 16777215 bytes, a pool 1048575 items, another list 262143, a book 32 layers";
    case AOZORA_ID_OR_RANGE: return "an id or a range points outside of its pool, or a range runs across two layers: look at the string ids and ranges of contents, segments and nodes";
    case AOZORA_LEVEL: return "a segment has a wrong level: it is 0 but for a Node segment, whose level is 1 to 32 and above all levels in the runs it names";
    case AOZORA_PLACE: return "something lies at an impossible place: look for empty, overlapping or unordered node spans, for spans past the text, for a normalized offset outside of its node's image, at pairs and containers, and for a diagnostic whose start is behind its end";
    case AOZORA_NORMALIZED_LENGTH: return "the normalized text is not as long as the text and the nodes' images make it: an image has 3 bytes, or 7 with padding";
    case AOZORA_EDIT: return "the edit does not fit the text: its start is behind its end, its end behind the text, or one of them inside a character";
    case AOZORA_SAME_TEXT: return "the edit changes nothing: the replacement is what stands there already";
    case AOZORA_RUBY_FORMAT_DEPENDENCY: return "a Referenced Format that ends behind the edit's start has the base of an earlier Ruby as its target: parse the whole text";
    case AOZORA_WHOLE_TEXT: return "there is no safe cut around the edit, so the passage to reread would be the whole text: parse the whole text";
    case AOZORA_OTHER_TEXT: return "the reading is of another text than the corrected passage: ask for the region again and read that part of the new text";
    case AOZORA_UNBALANCED: return "the reading opens a block or warichu that it does not close, or closes one that it did not open: parse the whole text";
    case AOZORA_UNCLOSED: return "the reading has a bracket without its partner (UnclosedBracket or UnmatchedClose): parse the whole text; or text is added at the end of a text that ends in a newline, and the old book has a diagnostic of no width there: let the edit begin at that newline and write it again before the new text, or parse the whole text";
    case AOZORA_NEW_RUBY_FORMAT_DEPENDENCY: return "the reading has a Ruby and a Referenced Format follows the passage, or it has a Referenced Format whose target is the base of an earlier Ruby: parse the whole text";
    case AOZORA_CUT_IN_CHARACTER: return "the passage begins or ends inside a character of the normalized text: the normalized text is not the images of the nodes";
    case AOZORA_LAYERS_FULL: return "the book has 32 layers already and the reading would add one: flatten the book and merge again, or parse the whole text; either gives a book of one layer with new ids and ranges";
    case AOZORA_NO_ROOM: return "the result does not fit: a result buffer is too short, fewer than 16384 work words are lent, the merged or flat book passes a limit, or its new layer has more than 3583 strings";
    case AOZORA_DESK_OR_LEDGER: return "there is no such desk, or the ledger has another length: desks are 0 to 63, and a ledger has exactly 64 totals";
    case AOZORA_TOTAL_FULL: return "the desk's total would pass 4294967295: write the invoice and begin a new ledger";
    default: return "not the number of a refusal";
    }
}

/* ---- answers */

typedef struct { uint32_t number; bool allowed; } aozora_allowed;
/* the node's place in the list */
typedef struct { uint32_t number; bool found; size_t node; } aozora_node;
/* where the first record stands in the tape, and how many they are */
typedef struct { uint32_t number; bool found; size_t place; uint32_t count; } aozora_range;
/* where the string starts and ends in the byte buffer */
typedef struct { uint32_t number; bool found; size_t start, end; } aozora_str;
/* how many bytes of the two result buffers the copy takes, or the flat book */
typedef struct { uint32_t number; size_t tape, bytes; } aozora_copy;
/* the region in offsets of the old text */
typedef struct { uint32_t number; uint32_t start, end; } aozora_region;

/* what a merge would cost: the reading's nodes, which are what is charged; how often the interner would be called, whether it finds the string or
   not; contents and segments that would be added; and the length of the result's byte buffer without the strings of the new layer. Where
   calls, contents or segments are above 1048575, all three are AOZORA_OVER; the other two are exact then too. */
typedef struct { uint32_t number, reread, calls, contents, segments; size_t bytes; } aozora_price;

/* the region in offsets of the old text; old nodes kept, the reading's nodes; the interner's seven counts; how many bytes of the two result
   buffers the book takes.
   calls is how many strings the reading's nodes name, each as often as it is named. probe_steps, how many slots of the interner's table were
   looked at, is at most calls × m, m being how many distinct strings of at most 64 bytes are among these, and 0 if m is 0: proved for every
   merge (merged_ceiling and merged_most in crates/incremental/specs/Ceiling.antt). m is at most 3583. */
typedef struct {
    uint32_t number, start, end, reused, reread;
    uint64_t calls, cache_hits, table_hits, allocs, long_bypass, resizes, probe_steps;
    size_t tape, bytes;
} aozora_merge_answer;
typedef struct { aozora_merge_answer earlier_first, later_second, later_first, earlier_second; } aozora_orders_answer;

/* ---- entries */

/* 0, or a number 1 to 7 */
uint32_t aozora_check_book(const uint8_t *tape, size_t tape_len, const uint8_t *bytes, size_t bytes_len);
uint32_t aozora_check_reading(const uint8_t *tape, size_t tape_len, const uint8_t *bytes, size_t bytes_len);

/* Of a book; a number 1 to 7 where it is none. */
aozora_allowed aozora_diagnostics_allow_incremental(const uint8_t *tape, size_t tape_len, const uint8_t *bytes, size_t bytes_len);
aozora_node aozora_node_at_source(const uint8_t *tape, size_t tape_len, const uint8_t *bytes, size_t bytes_len, uint32_t offset);
aozora_str aozora_lookup_str(const uint8_t *tape, size_t tape_len, const uint8_t *bytes, size_t bytes_len, uint32_t id);
aozora_range aozora_lookup_contents(const uint8_t *tape, size_t tape_len, const uint8_t *bytes, size_t bytes_len, uint32_t start, uint32_t len);
aozora_range aozora_lookup_segments(const uint8_t *tape, size_t tape_len, const uint8_t *bytes, size_t bytes_len, uint32_t start, uint32_t len);

/* Both result buffers are written whole: the copy and zeros behind it, or zeros after a refusal, 1 to 7 or 18. */
aozora_copy aozora_copy_book(const uint8_t *tape, size_t tape_len, const uint8_t *bytes, size_t bytes_len,
                             uint8_t *out_tape, size_t out_tape_len, uint8_t *out_bytes, size_t out_bytes_len);

/* The book with one layer, for after 17. Where number is 0, keep the result, of lengths tape and bytes, in the book's place and merge the same
   edit and reading again; where it is not, keep the old book: the result buffers are zeros. The trees of the nodes are grafted in order into one
   fresh layer, and what no node names is gone; a book without nodes keeps one empty layer. Texts, spans, lists in their order and trees are equal
   before and after. Ids are not: every string id and range given out before ends here (an old id may show another string in the flat book), and
   those of the flat book hold until it is flattened in turn. Two books that show the same are the same bytes once they are flat, so both orders
   of two separate corrections give one book; and a flat book flattened again is itself. Nothing is reread or charged.
   Both result buffers are written whole: the flat book and zeros behind it, or zeros after a refusal, 1 to 7 or 18. The words, AOZORA_WORK_WORDS
   at least, come back as zeros.
   18: a result buffer is too short or words are too few; or the flat layer would have more than 3583 strings or more than 1048575 contents or
   segments: then parse the whole text, or first merge corrections whose readings have no nodes, which 17 does not refuse and which may take enough
   away. Equal strings of up to 64 bytes are stored once. A longer string, and a run of contents or segments, is stored each time that it is named;
   only a long string that is named twice in a row is stored once for both.
   Result buffers as long as the old tape and bytes are enough where no content, no segment and no string of more than 64 bytes is named twice. No
   merge names a content or segment twice in what it adds. On 18 lend more and ask again, but no more than this: with AOZORA_WORK_WORDS words, a
   result tape of tape_len + 49300940 bytes and a byte buffer of bytes_len + 3583 times the longest string (bytes_len, where no string has more than
   64 bytes) are enough for every book that can be flattened. */
aozora_copy aozora_flatten_book(const uint8_t *tape, size_t tape_len, const uint8_t *bytes, size_t bytes_len,
                                uint8_t *out_tape, size_t out_tape_len, uint8_t *out_bytes, size_t out_bytes_len, uint32_t *work, size_t work_len);

/* A number 1 to 11, or the region, which ends behind a blank line that is still there in the new text, or at the text's end. The words may be any
   number, also none; more make it faster. They come back as zeros. */
aozora_region aozora_choose_region(const uint8_t *tape, size_t tape_len, const uint8_t *bytes, size_t bytes_len, uint32_t start, uint32_t end,
                                   const uint8_t *replacement, size_t replacement_len, uint32_t *words, size_t words_len);

/* What aozora_merge would cost, without a result: a number 1 to 17 exactly where the merge answers it, whatever it is lent; else the price. Where
   the merge is accepted, these are its numbers; where it is refused with 18, those that it would have had. There is no 18 here. The words may
   be any number, also none; two for each node of a large book make numbers 10 and 15 faster. They come back as zeros. It takes the time of the
   merge up to number 17 and one walk over what would be grafted, which ends where contents or segments are over: a few records can stand for
   2^33 items, and no more than some two million are walked.
   Result buffers that are certainly long enough for the merge: for the tape tape_len + reading_tape_len + 17916 + 10 * contents + 37 * segments
   bytes, for the texts and strings bytes plus 3583 times the reading's longest string; where no string of the reading has more than 64 bytes,
   reading_bytes_len is enough in place of the last. */
aozora_price aozora_estimate(const uint8_t *tape, size_t tape_len, const uint8_t *bytes, size_t bytes_len, uint32_t start, uint32_t end,
                             const uint8_t *replacement, size_t replacement_len, const uint8_t *reading_tape, size_t reading_tape_len,
                             const uint8_t *reading_bytes, size_t reading_bytes_len, uint32_t *work, size_t work_len);

/* A number 1 to 18, or the merged book in the two result buffers. They are written whole, with zeros behind the book or after a refusal; the
   words, AOZORA_WORK_WORDS at least, come back as zeros.
   A diagnostic of no width, with start = end, stays where it is if it lies at the region's start or before; if not, it is moved with the text if it
   lies at the region's end or behind; else it is dropped. So one at an end of the region stays, and a reading that has it too puts a second one
   there. Text added at the end of a text that ends in a newline has an empty region: with such a diagnostic there it is refused with 14. Let the
   edit begin at that newline, write the newline again before the new text, and ask for the region anew: the reading is then of the whole last
   passage, and the diagnostic stays at the text's end. Where that is refused with 11, parse the whole text. */
aozora_merge_answer aozora_merge(const uint8_t *tape, size_t tape_len, const uint8_t *bytes, size_t bytes_len, uint32_t start, uint32_t end,
                                 const uint8_t *replacement, size_t replacement_len, const uint8_t *reading_tape, size_t reading_tape_len,
                                 const uint8_t *reading_bytes, size_t reading_bytes_len, uint8_t *out_tape, size_t out_tape_len,
                                 uint8_t *out_bytes, size_t out_bytes_len, uint32_t *work, size_t work_len);

/* aozora_merge for a desk: where it is accepted, the desk's total in the ledger has grown by `reread`, and all others stay. The ledger is
   AOZORA_DESKS totals, zeros at first; it is yours, and kept over night like any other numbers (docs/FORMAT.md). Only one call at a time may
   have it, also for different desks: all its totals are read before the merge and written behind it. 19 comes before all else: the desk is
   above 63, or the ledger has another length. Then aozora_merge's 1 to 18; then 20: the total would pass 4294967295, which a reading without
   nodes never meets. After any refusal the ledger is as it was, and the result buffers and the words are zeros. After 20 the correction is not
   made: write the invoice, set all totals to 0, and call again. So whichever calls are made on a ledger of zeros, each total is the sum of its
   own accepted `reread`, and all together, which may pass 32 bits, are the sum of all (ran_totals in crates/desk/proofs/Ran.antt). */
aozora_merge_answer aozora_merge_for_desk(uint32_t desk, uint32_t *ledger, size_t ledger_len,
                                          const uint8_t *tape, size_t tape_len, const uint8_t *bytes, size_t bytes_len, uint32_t start, uint32_t end,
                                          const uint8_t *replacement, size_t replacement_len, const uint8_t *reading_tape, size_t reading_tape_len,
                                          const uint8_t *reading_bytes, size_t reading_bytes_len, uint8_t *out_tape, size_t out_tape_len,
                                          uint8_t *out_bytes, size_t out_bytes_len, uint32_t *work, size_t work_len);

/* The earlier-lying correction, 1, and the later-lying, 2, in both orders: 1 into buffers 1, then 2, moved by the change in length, into
   buffers 2; 2 into buffers 3, then 1 into buffers 4. All four merges are made, whatever they answer; behind a refused one the book is empty,
   which the next refuses with 1. Where all four numbers are 0 and the two regions are separate, the books in buffers 2 and 4 are equal, with
   strings in place of ids; the sums of `reread` too; and each reference into the first book keeps its meaning (docs/PROMISE.md). */
aozora_orders_answer aozora_merge_both_orders(const uint8_t *tape, size_t tape_len, const uint8_t *bytes, size_t bytes_len,
    uint32_t start1, uint32_t end1, const uint8_t *replacement1, size_t replacement1_len,
    const uint8_t *reading_tape1, size_t reading_tape1_len, const uint8_t *reading_bytes1, size_t reading_bytes1_len,
    uint32_t start2, uint32_t end2, const uint8_t *replacement2, size_t replacement2_len,
    const uint8_t *reading_tape2, size_t reading_tape2_len, const uint8_t *reading_bytes2, size_t reading_bytes2_len,
    uint8_t *tape1, size_t tape1_len, uint8_t *bytes1, size_t bytes1_len, uint8_t *tape2, size_t tape2_len, uint8_t *bytes2, size_t bytes2_len,
    uint8_t *tape3, size_t tape3_len, uint8_t *bytes3, size_t bytes3_len, uint8_t *tape4, size_t tape4_len, uint8_t *bytes4, size_t bytes4_len,
    uint32_t *work, size_t work_len);

#ifdef __cplusplus
}
#endif

#endif
