// The limit of a merge: what the same bytes cost at least, by the quickest code that is known for each part. cc -O3 -mavx2
#include <stddef.h>
#include <stdint.h>
#include <string.h>

#if defined(__x86_64__) && defined(__AVX2__)
#include <immintrin.h>

int limit_known(void) { return __builtin_cpu_supports("avx2") != 0; }

// UTF-8 by the lookup algorithm of Keiser and Lemire ("Validating UTF-8 in less than one instruction per byte", 2021): three tables of 16 bytes,
// asked by the two halves of a byte and by the upper half of the next one, say which errors these two bytes may have; an error is where all three agree.
enum {
  TOO_SHORT = 1 << 0, TOO_LONG = 1 << 1, OVERLONG_3 = 1 << 2, TOO_LARGE = 1 << 3, SURROGATE = 1 << 4, OVERLONG_2 = 1 << 5,
  TOO_LARGE_1000 = 1 << 6, OVERLONG_4 = 1 << 6, TWO_CONTS = 1 << 7, CARRY = TOO_SHORT | TOO_LONG | TWO_CONTS,
};
enum { LARGE = CARRY | TOO_LARGE | TOO_LARGE_1000 };

static const uint8_t FIRST_HIGH[16] = {
  TOO_LONG, TOO_LONG, TOO_LONG, TOO_LONG, TOO_LONG, TOO_LONG, TOO_LONG, TOO_LONG, TWO_CONTS, TWO_CONTS, TWO_CONTS, TWO_CONTS,
  TOO_SHORT | OVERLONG_2, TOO_SHORT, TOO_SHORT | OVERLONG_3 | SURROGATE, TOO_SHORT | TOO_LARGE | TOO_LARGE_1000 | OVERLONG_4,
};
static const uint8_t FIRST_LOW[16] = {
  CARRY | OVERLONG_3 | OVERLONG_2 | OVERLONG_4, CARRY | OVERLONG_2, CARRY, CARRY, CARRY | TOO_LARGE,
  LARGE, LARGE, LARGE, LARGE, LARGE, LARGE, LARGE, LARGE, LARGE | SURROGATE, LARGE, LARGE,
};
static const uint8_t SECOND_HIGH[16] = {
  TOO_SHORT, TOO_SHORT, TOO_SHORT, TOO_SHORT, TOO_SHORT, TOO_SHORT, TOO_SHORT, TOO_SHORT,
  TOO_LONG | OVERLONG_2 | TWO_CONTS | OVERLONG_3 | TOO_LARGE_1000 | OVERLONG_4, TOO_LONG | OVERLONG_2 | TWO_CONTS | OVERLONG_3 | TOO_LARGE,
  TOO_LONG | OVERLONG_2 | TWO_CONTS | SURROGATE | TOO_LARGE, TOO_LONG | OVERLONG_2 | TWO_CONTS | SURROGATE | TOO_LARGE,
  TOO_SHORT, TOO_SHORT, TOO_SHORT, TOO_SHORT,
};

static inline __m256i table(const uint8_t *t) { return _mm256_broadcastsi128_si256(_mm_loadu_si128((const __m128i *)t)); }
static inline __m256i high(__m256i x) { return _mm256_and_si256(_mm256_srli_epi16(x, 4), _mm256_set1_epi8(0x0f)); }
static inline __m256i low(__m256i x) { return _mm256_and_si256(x, _mm256_set1_epi8(0x0f)); }
static inline __m256i or_(__m256i a, __m256i b) { return _mm256_or_si256(a, b); }

// the errors of 32 bytes, `before` being the 32 before them
static inline __m256i errors(__m256i in, __m256i before) {
  __m256i joined = _mm256_permute2x128_si256(before, in, 0x21);
  __m256i p1 = _mm256_alignr_epi8(in, joined, 15), p2 = _mm256_alignr_epi8(in, joined, 14), p3 = _mm256_alignr_epi8(in, joined, 13);
  __m256i pair = _mm256_and_si256(_mm256_shuffle_epi8(table(FIRST_HIGH), high(p1)), _mm256_shuffle_epi8(table(FIRST_LOW), low(p1)));
  pair = _mm256_and_si256(pair, _mm256_shuffle_epi8(table(SECOND_HIGH), high(in)));
  __m256i third = _mm256_subs_epu8(p2, _mm256_set1_epi8(0xe0 - 0x80)), fourth = _mm256_subs_epu8(p3, _mm256_set1_epi8(0xf0 - 0x80));
  return _mm256_xor_si256(_mm256_and_si256(or_(third, fourth), _mm256_set1_epi8((char)0x80)), pair);
}

int limit_utf8(const uint8_t *s, size_t n) {
  static const uint8_t LAST[32] = {
    255, 255, 255, 255, 255, 255, 255, 255, 255, 255, 255, 255, 255, 255, 255, 255,
    255, 255, 255, 255, 255, 255, 255, 255, 255, 255, 255, 255, 255, 0xf0 - 1, 0xe0 - 1, 0xc0 - 1,
  };
  const __m256i last = _mm256_loadu_si256((const __m256i *)LAST);
  __m256i wrong = _mm256_setzero_si256(), before = wrong, open = wrong; // open: a character that the last 32 bytes begin and do not end
  for (size_t i = 0; i < n; i += 32) {
    __m256i in;
    if (n - i >= 32) in = _mm256_loadu_si256((const __m256i *)(s + i));
    else { uint8_t rest[32] = {0}; memcpy(rest, s + i, n - i); in = _mm256_loadu_si256((const __m256i *)rest); }
    wrong = or_(wrong, _mm256_movemask_epi8(in) ? errors(in, before) : open);
    open = _mm256_subs_epu8(in, last);
    before = in;
  }
  wrong = or_(wrong, open);
  return _mm256_testz_si256(wrong, wrong);
}
#else
int limit_known(void) { return 0; }
int limit_utf8(const uint8_t *s, size_t n) { (void)s; (void)n; return 0; }
#endif

static inline uint32_t word(const uint8_t *p) { uint32_t w; memcpy(&w, p, 4); return w; }

static inline uint64_t words(const uint8_t *p, int n) { uint64_t a = 0; for (int k = 0; k < n; k++) a ^= word(p + 4 * k); return a; }

// every word of a tape read once, record by record
uint64_t limit_words(const uint8_t *t, size_t n) {
  uint64_t a = 0;
  for (size_t i = 9; i < n;) switch (t[i]) {
    case 2: i += 1; break;
    case 3: a ^= word(t + i + 1); i += 5; break;
    case 4: a += t[i + 1]; a ^= words(t + i + 2, 2); i += 10; break;
    case 5: a += t[i + 1] + t[i + 2] + t[i + 3] + t[i + 4]; a ^= words(t + i + 5, 8); i += 37; break;
    case 6: a += t[i + 1] + t[i + 2] + t[i + 15] + t[i + 16]; a ^= words(t + i + 3, 3) ^ words(t + i + 17, 8); i += 49; break;
    case 7: case 9: a += t[i + 1]; a ^= words(t + i + 2, 4); i += 18; break;
    case 8: a ^= words(t + i + 1, 3); i += 13; break;
    default: return a;
  }
  return a;
}
