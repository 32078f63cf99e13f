/* Document 01's P5 priced and merged, also for a desk, a damaged tape refused, two corrections in both orders, diagnostics of no width, a book of 32 layers
   flattened, and what else can be asked of a book.
   From the repository's root:
     (cd crates/exports && rt lib) && cc -I bindings/c bindings/c/example.c -L crates/exports/out -lexports -o /tmp/example && /tmp/example
   It prints bindings/c/example.txt. */
#include <stdio.h>
#include <stdlib.h>
#include <string.h>
#include "aozora.h"

/* a slice as two arguments */
#define SLICE(s) (s), sizeof (s)
#define WORDS(w) (w), sizeof (w) / sizeof (w)[0]
#define STR(s) (const uint8_t *)(s), sizeof (s) - 1

/* The old book: "aa\n\nbb\n\ncc", one empty layer. Both texts have 10 bytes. */
static const uint8_t tape[] = { 1, 10, 0, 0, 0, 10, 0, 0, 0, 2, 10 };
#define TEXT "aa\n\nbb\n\ncc"
#define BYTES TEXT TEXT

/* The reading of the passage 4..8 with `x` at 4: "xb\n\n" with a Ruby at 0..2, base "x", reading "b" (docs/FORMAT.md has it record by record). */
static const uint8_t reading_tape[] = {
    1, 4, 0, 0, 0, 5, 0, 0, 0,
    2,
    3, 1, 0, 0, 0,
    3, 1, 0, 0, 0,
    4, 0, 0, 0, 0, 0, 0, 0, 0, 0,
    4, 0, 1, 0, 0, 0, 0, 0, 0, 0,
    6, 0, 0, 0, 0, 0, 0, 2, 0, 0, 0, 0, 0, 0, 0,
       1, 0, 0, 0, 0, 0, 0, 0, 0, 0,
       0, 0, 0, 0, 1, 0, 0, 0, 1, 0, 0, 0, 1, 0, 0, 0, 0, 0, 0, 0, 0, 0, 0, 0,
    10
};
#define READING_BYTES "xb\n\n" "\xEE\x80\x81\n\n" "x" "b"

/* The reading of the passage 0..4 with `yyy` in place of the first `a`: no nodes. */
static const uint8_t first_tape[] = { 1, 6, 0, 0, 0, 6, 0, 0, 0, 2, 10 };
#define FIRST_BYTES "yyya\n\n" "yyya\n\n"

/* A book "aa\n\nbb\n" with three diagnostics of no width: before its first character, between the two `b`, and at its end. */
static const uint8_t marked_tape[] = {
    1, 7, 0, 0, 0, 7, 0, 0, 0,
    2,
    9, 4, 0, 0, 0, 0, 0, 0, 0, 0, 0, 0, 0, 0, 0, 0, 0, 0,
    9, 4, 0, 0, 0, 0, 5, 0, 0, 0, 5, 0, 0, 0, 0, 0, 0, 0,
    9, 4, 0, 0, 0, 0, 7, 0, 0, 0, 7, 0, 0, 0, 0, 0, 0, 0,
    10
};
#define MARKED_BYTES "aa\n\nbb\n" "aa\n\nbb\n"

/* The reading of the passage 4..7 with `x` between the two `b`, and with a diagnostic of no width behind the `x`. */
static const uint8_t marked_reading_tape[] = {
    1, 4, 0, 0, 0, 4, 0, 0, 0,
    2,
    9, 4, 0, 0, 0, 0, 2, 0, 0, 0, 2, 0, 0, 0, 0, 0, 0, 0,
    10
};
/* The reading of `cc`, added at the end. */
static const uint8_t added_tape[] = { 1, 2, 0, 0, 0, 2, 0, 0, 0, 2, 10 };
/* The reading of the passage 4..7 with `cc` at its end. */
static const uint8_t longer_tape[] = { 1, 5, 0, 0, 0, 5, 0, 0, 0, 2, 10 };

static uint32_t work[AOZORA_WORK_WORDS];

static void line(const char *label, aozora_merge_answer a) {
    if (a.number) printf("%s: refused %u, %s\n", label, (unsigned)a.number, aozora_refusal_message(a.number));
    else printf("%s: region %u %u reused %u reread %u calls %llu probes %llu\n", label, (unsigned)a.start, (unsigned)a.end, (unsigned)a.reused,
                (unsigned)a.reread, (unsigned long long)a.calls, (unsigned long long)a.probe_steps);
}

/* a text as a literal has it */
static void text(const char *label, const uint8_t *s, size_t n) {
    printf("%s: \"", label);
    for (size_t i = 0; i < n; i++) { if (s[i] == '\n') printf("\\n"); else putchar(s[i]); }
    printf("\"\n");
}

static void merge_p5(void) {
    uint8_t out_tape[256], out_bytes[256];
    aozora_region r = aozora_choose_region(SLICE(tape), STR(BYTES), 4, 5, STR("x"), WORDS(work));
    printf("the edit 4..5 has the region %u..%u\n", (unsigned)r.start, (unsigned)r.end);
    aozora_price p = aozora_estimate(SLICE(tape), STR(BYTES), 4, 5, STR("x"), SLICE(reading_tape), STR(READING_BYTES), WORDS(work));
    printf("before the merge: reread %u calls %u contents %u segments %u, %zu bytes and the new strings\n", (unsigned)p.reread, (unsigned)p.calls,
           (unsigned)p.contents, (unsigned)p.segments, p.bytes);
    aozora_merge_answer a = aozora_merge(SLICE(tape), STR(BYTES), 4, 5, STR("x"), SLICE(reading_tape), STR(READING_BYTES), SLICE(out_tape), SLICE(out_bytes), WORDS(work));
    line("P5", a);
    printf("it takes %zu and %zu bytes\n", a.tape, a.bytes);
    text("the merged text", out_bytes, 10);
    printf("check_book of it: %u\n", (unsigned)aozora_check_book(out_tape, a.tape, out_bytes, a.bytes));
    aozora_node n = aozora_node_at_source(out_tape, a.tape, out_bytes, a.bytes, 5);
    aozora_range c = aozora_lookup_contents(out_tape, a.tape, out_bytes, a.bytes, 0, 1);
    aozora_str s = aozora_lookup_str(out_tape, a.tape, out_bytes, a.bytes, 1);
    printf("at 5 stands node %zu; content 0 is the record at %zu of the tape; ", n.node, c.place);
    text("string 1", out_bytes + s.start, s.end - s.start);
}

static void why_refused(void) {
    uint8_t damaged[sizeof reading_tape], out_tape[256], out_bytes[256];
    memcpy(damaged, reading_tape, sizeof damaged);
    damaged[32] = 9;   /* content 1 is then string 9 of 2 */
    aozora_price p;
    uint32_t n = aozora_check_reading(SLICE(damaged), STR(READING_BYTES));
    printf("a damaged reading: %u, %s\n", (unsigned)n, aozora_refusal_message(n));
    line("it is not merged", aozora_merge(SLICE(tape), STR(BYTES), 4, 5, STR("x"), SLICE(damaged), STR(READING_BYTES), SLICE(out_tape), SLICE(out_bytes), WORDS(work)));
    p = aozora_estimate(SLICE(tape), STR(BYTES), 4, 5, STR("x"), SLICE(damaged), STR(READING_BYTES), WORDS(work));
    printf("nor has it a price: refused %u\n", (unsigned)p.number);
    line("a reading of another text", aozora_merge(SLICE(tape), STR(BYTES), 4, 5, STR("z"), SLICE(reading_tape), STR(READING_BYTES), SLICE(out_tape), SLICE(out_bytes), WORDS(work)));
    size_t rest = 0;
    for (size_t i = 0; i < sizeof out_tape; i++) rest += out_tape[i] != 0;
    for (size_t i = 0; i < sizeof out_bytes; i++) rest += out_bytes[i] != 0;
    printf("bytes of the lent buffers that are not zero then: %zu\n", rest);
}

static aozora_merge_answer p5_for(uint32_t desk, uint32_t *ledger, size_t ledger_len) {
    uint8_t out_tape[256], out_bytes[256];
    return aozora_merge_for_desk(desk, ledger, ledger_len, SLICE(tape), STR(BYTES), 4, 5, STR("x"), SLICE(reading_tape), STR(READING_BYTES),
                                 SLICE(out_tape), SLICE(out_bytes), WORDS(work));
}

static void for_a_desk(void) {
    uint32_t ledger[AOZORA_DESKS] = { 0 };
    line("P5 for desk 7", p5_for(7, WORDS(ledger)));
    line("for desk 64", p5_for(64, WORDS(ledger)));
    for (unsigned desk = 0; desk < AOZORA_DESKS; desk++) if (ledger[desk]) printf("the invoice: desk %u reread %u\n", desk, (unsigned)ledger[desk]);
}

static void both_orders(void) {
    uint8_t t1[256], b1[256], t2[256], b2[256], t3[256], b3[256], t4[256], b4[256];
    aozora_orders_answer o = aozora_merge_both_orders(SLICE(tape), STR(BYTES),
        0, 1, STR("yyy"), SLICE(first_tape), STR(FIRST_BYTES), 4, 5, STR("x"), SLICE(reading_tape), STR(READING_BYTES),
        SLICE(t1), SLICE(b1), SLICE(t2), SLICE(b2), SLICE(t3), SLICE(b3), SLICE(t4), SLICE(b4), WORDS(work));
    line("earlier first", o.earlier_first);
    line("then the later, moved by 2", o.later_second);
    text("the text", b2, 12);
    line("later first", o.later_first);
    line("then the earlier", o.earlier_second);
    text("the text", b4, 12);
    printf("reread: %u and %u\n", (unsigned)(o.earlier_first.reread + o.later_second.reread), (unsigned)(o.later_first.reread + o.earlier_second.reread));
    /* one of them has nodes, so each order adds one layer and even the bytes are the same; in general only what they show is */
    printf("the final books: %s\n", o.later_second.tape == o.earlier_second.tape && o.later_second.bytes == o.earlier_second.bytes
           && memcmp(t2, t4, o.later_second.tape) == 0 && memcmp(b2, b4, o.later_second.bytes) == 0 ? "the same bytes" : "not the same bytes");
}

/* the diagnostics of a tape without strings, nodes, pairs and containers: they stand behind the head and one layer, 18 bytes each */
static void diagnostics(const uint8_t *t) {
    printf("diagnostics:");
    for (t += 10; *t == 9; t += 18) printf(" %u..%u", (unsigned)t[6], (unsigned)t[10]);   /* all places are below 256 here */
    printf("\n");
}

static void of_no_width(void) {
    uint8_t out_tape[256], out_bytes[256], damaged[sizeof marked_tape];
    printf("a book with diagnostics of no width: %u; ", (unsigned)aozora_check_book(SLICE(marked_tape), STR(MARKED_BYTES)));
    diagnostics(marked_tape);
    line("x between them", aozora_merge(SLICE(marked_tape), STR(MARKED_BYTES), 5, 5, STR("x"), SLICE(marked_reading_tape), STR("bxb\n" "bxb\n"),
                                        SLICE(out_tape), SLICE(out_bytes), WORDS(work)));
    diagnostics(out_tape);   /* the first stays, the second is dropped, the reading's is placed, the last moves */
    line("cc at the end", aozora_merge(SLICE(marked_tape), STR(MARKED_BYTES), 7, 7, STR("cc"), SLICE(added_tape), STR("cc" "cc"),
                                       SLICE(out_tape), SLICE(out_bytes), WORDS(work)));
    aozora_merge_answer a = aozora_merge(SLICE(marked_tape), STR(MARKED_BYTES), 6, 7, STR("\ncc"), SLICE(longer_tape), STR("bb\ncc" "bb\ncc"),
                                         SLICE(out_tape), SLICE(out_bytes), WORDS(work));
    line("with the last newline in the edit", a);
    text("the text", out_bytes, 9);
    diagnostics(out_tape);
    memcpy(damaged, marked_tape, sizeof damaged);
    damaged[16] = 1;   /* the first is then 1..0 */
    printf("a diagnostic that ends before it starts: %u\n", (unsigned)aozora_check_book(SLICE(damaged), STR(MARKED_BYTES)));
}

/* a book in buffers of its own */
typedef struct { uint8_t tape[2048], bytes[256]; size_t tape_len, bytes_len; } book;
#define BOOK(k) (k).tape, (k).tape_len, (k).bytes, (k).bytes_len
#define ROOM(k) (k).tape, sizeof (k).tape, (k).bytes, sizeof (k).bytes

/* P5 with another letter in place of the x. */
static aozora_merge_answer corrected(const book *old, uint8_t letter, book *out) {
    uint8_t bytes[] = READING_BYTES;   /* the letter begins the text, and is string 0 */
    bytes[0] = bytes[9] = letter;
    aozora_merge_answer a = aozora_merge(BOOK(*old), 4, 5, &letter, 1, SLICE(reading_tape), bytes, sizeof bytes - 1, ROOM(*out), WORDS(work));
    out->tape_len = a.tape;
    out->bytes_len = a.bytes;
    return a;
}

static aozora_copy flattened(const book *old, book *out) {
    aozora_copy c = aozora_flatten_book(BOOK(*old), ROOM(*out), WORDS(work));
    out->tape_len = c.tape;
    out->bytes_len = c.bytes;
    return c;
}

static void string(const char *label, const book *k, uint32_t id) {
    aozora_str s = aozora_lookup_str(BOOK(*k), id);
    if (s.found) text(label, k->bytes + s.start, s.end - s.start);
    else printf("%s: none\n", label);
}

/* One passage corrected again and again. Each reading with nodes adds a layer, until a merge is refused with 17; then the book is flattened. */
static void a_long_day(void) {
    static book old, made, flat, twice;
    aozora_merge_answer a;
    unsigned corrections = 0;
    memcpy(old.tape, tape, old.tape_len = sizeof tape);
    memcpy(old.bytes, BYTES, old.bytes_len = sizeof BYTES - 1);
    for (;;) {
        a = corrected(&old, corrections % 2 ? 'y' : 'x', &made);
        if (a.number) break;
        corrections++;
        old = made;
    }
    printf("%u corrections of one passage take %zu and %zu bytes\n", corrections, old.tape_len, old.bytes_len);
    line("one more", a);
    string("its string 60", &old, 60);
    aozora_copy f = flattened(&old, &flat);
    if (f.number) { printf("not flattened: %u; the old book stays\n", (unsigned)f.number); return; }
    printf("flat they take %zu and %zu\n", flat.tape_len, flat.bytes_len);
    string("its string 60", &flat, 60);   /* references end with the flattening */
    string("its string 0", &flat, 0);
    flattened(&flat, &twice);
    printf("flattened again: %s\n", twice.tape_len == flat.tape_len && twice.bytes_len == flat.bytes_len
           && memcmp(twice.tape, flat.tape, flat.tape_len) == 0 && memcmp(twice.bytes, flat.bytes, flat.bytes_len) == 0 ? "the same bytes" : "not the same bytes");
    line("one more", corrected(&flat, corrections % 2 ? 'y' : 'x', &made));
    aozora_copy c = aozora_flatten_book(BOOK(old), flat.tape, flat.tape_len - 1, flat.bytes, sizeof flat.bytes, WORDS(work));
    printf("into a buffer one byte short: %u\n", (unsigned)c.number);
}

static void lookups(void) {
    uint8_t out_tape[64], out_bytes[64];
    aozora_copy c = aozora_copy_book(SLICE(tape), STR(BYTES), SLICE(out_tape), SLICE(out_bytes));
    printf("a copy takes %zu and %zu bytes\n", c.tape, c.bytes);
    c = aozora_copy_book(SLICE(tape), STR(BYTES), out_tape, sizeof tape - 1, SLICE(out_bytes));
    printf("into a buffer one byte short: %u, %s\n", (unsigned)c.number, aozora_refusal_message(c.number));
    printf("diagnostics allow an incremental parse: %d; segments 0..0: %d, 0..1: %d\n", aozora_diagnostics_allow_incremental(SLICE(tape), STR(BYTES)).allowed,
           aozora_lookup_segments(SLICE(tape), STR(BYTES), 0, 0).found, aozora_lookup_segments(SLICE(tape), STR(BYTES), 0, 1).found);
}

int main(void) {
    merge_p5();
    why_refused();
    for_a_desk();
    both_orders();
    of_no_width();
    a_long_day();
    lookups();
    return EXIT_SUCCESS;
}
