/* P5 on a book whose one string has 4294967295 bytes: the new strings stand behind the first 4 GiB of the byte buffer. It takes 4.3 GiB of
   memory and some seconds. From the repository's root:
     (cd crates/exports && rt lib) && cc -O1 -I bindings/c tools/cases/large.c -L crates/exports/out -lexports -o /tmp/large && /tmp/large < crates/merge/stdin */
#include <stdio.h>
#include <string.h>
#include <sys/mman.h>
#include "aozora.h"

static uint8_t input[65536], out_tape[65536];
static uint32_t work[16384];

static uint8_t *lent(size_t n) {   /* zeros, of which only those that are written take memory */
    return mmap(0, n, PROT_READ | PROT_WRITE, MAP_PRIVATE | MAP_ANONYMOUS | MAP_NORESERVE, -1, 0);
}

int main(void) {
    const uint8_t tape[] = { 1, 10, 0, 0, 0, 10, 0, 0, 0, 2, 3, 255, 255, 255, 255, 10 };
    const size_t old = 20 + 4294967295ul, room = old + 64;
    uint32_t head[7];
    if (fread(input, 1, sizeof input, stdin) < 28) return 2;
    memcpy(head, input, 28);
    const uint8_t *replacement = input + 28 + head[0] + head[1], *reading_tape = replacement + head[4], *reading_bytes = reading_tape + head[5];
    uint8_t *bytes = lent(old), *out = lent(room);
    if (bytes == MAP_FAILED || out == MAP_FAILED) return 2;
    memcpy(bytes, "aa\n\nbb\n\nccaa\n\nbb\n\ncc", 20);
    memset(out + old, 7, room - old);
    memset(work, 7, sizeof work);
    aozora_merge_answer a = aozora_merge(tape, sizeof tape, bytes, old, head[2], head[3], replacement, head[4], reading_tape, head[5], reading_bytes, head[6],
                                         out_tape, sizeof out_tape, out, room, work, 16384);
    printf("number %u region %u %u reused %u reread %u, %zu bytes\n", a.number, a.start, a.end, a.reused, a.reread, a.bytes);
    if (a.number) return 1;
    for (uint32_t id = 0; id < 3; id++) {
        aozora_str s = aozora_lookup_str(out_tape, a.tape, out, a.bytes, id);
        printf("string %u: %zu to %zu", id, s.start, s.end);
        if (id) printf(", %.*s", (int)(s.end - s.start), (const char *)out + s.start);
        printf("\n");
    }
    size_t rest = 0;
    for (size_t i = a.bytes; i < room; i++) rest += out[i];
    for (size_t i = 0; i < 16384; i++) rest += work[i];
    return aozora_check_book(out_tape, a.tape, out, a.bytes) || memcmp(out + a.bytes - 2, "xb", 2) || rest;
}
