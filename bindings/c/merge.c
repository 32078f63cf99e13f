/* The program `merge` of document 01, section Runs, in C over the proved archive: one input on standard input, one line on standard output.
     cc -I bindings/c bindings/c/merge.c -L crates/exports/out -lexports -o /tmp/merge && /tmp/merge < crates/merge/stdin */
#include <stdio.h>
#include <string.h>
#include "aozora.h"

enum { HEAD = 28, PART = 65536, PARTS = 5 };

static uint8_t input[HEAD + PARTS * PART + 1];
static uint8_t out_tape[PART], out_bytes[PART];
static uint32_t work[AOZORA_WORK_WORDS];

static uint32_t word(size_t i) {
    const uint8_t *p = input + 4 * i;
    return p[0] | (uint32_t)p[1] << 8 | (uint32_t)p[2] << 16 | (uint32_t)p[3] << 24;
}

static aozora_merge_answer refused(uint32_t number) {
    aozora_merge_answer a;
    memset(&a, 0, sizeof a);
    a.number = number;
    return a;
}

/* Seven words: lengths of old tape, old bytes; edit start, end; lengths of replacement, reading tape, reading bytes. Then those five parts. */
static aozora_merge_answer merged(size_t n) {
    static const size_t lengths[PARTS] = { 0, 1, 4, 5, 6 };
    const uint8_t *part[PARTS], *at = input + HEAD;
    size_t len[PARTS], i;
    if (n < HEAD) return refused(AOZORA_LAYOUT);
    for (i = 0; i < PARTS; i++) {
        len[i] = word(lengths[i]);
        if (len[i] > PART) return refused(AOZORA_OVER_LIMIT);
    }
    for (i = 0; i < PARTS; i++) { part[i] = at; at += len[i]; }
    if (at != input + n) return refused(AOZORA_LAYOUT);
    return aozora_merge(part[0], len[0], part[1], len[1], word(2), word(3), part[2], len[2], part[3], len[3], part[4], len[4],
                        out_tape, sizeof out_tape, out_bytes, sizeof out_bytes, work, AOZORA_WORK_WORDS);
}

int main(void) {
    aozora_merge_answer a = merged(fread(input, 1, sizeof input, stdin));
    if (a.number) printf("refused %u\n", (unsigned)a.number);
    else printf("region %u %u reused %u reread %u calls %llu probes %llu\n", (unsigned)a.start, (unsigned)a.end, (unsigned)a.reused, (unsigned)a.reread,
                (unsigned long long)a.calls, (unsigned long long)a.probe_steps);
    return 0;
}
