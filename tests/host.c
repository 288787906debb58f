/* The six calls as a C or C++ program sees them: the worked sums, every refusal in its order, every wrong length, every byte of
 * the state spoilt, what was limited counted, and nothing touched that is not to be. What a call must answer is worked out here
 * from the rules of SCOPE; what is coded and heard is compared with a second codec elsewhere (rust/tests). It stops at the first
 * fault. */
#ifndef _GNU_SOURCE
#define _GNU_SOURCE
#endif
#include <stdio.h>
#include <stdlib.h>
#include <string.h>
#include <sys/mman.h>
#include <ucontext.h>

#include <zelcandry.h>

/* The declarations, held by the compiler. */
static uint64_t (*const code)(uint8_t *, size_t, const uint8_t *, size_t, uint8_t *, size_t) = zelcandry_code;
static uint64_t (*const decode)(uint8_t *, size_t, uint8_t, const uint8_t *, size_t, uint8_t *, size_t) = zelcandry_decode;
static uint64_t (*const hear)(uint8_t *, size_t, uint8_t, const uint8_t *, size_t, uint8_t *, size_t, uint8_t *, size_t) = zelcandry_hear;
static uint64_t (*const join)(uint8_t *, size_t, const uint8_t *, size_t, const uint8_t *, size_t, uint8_t *, size_t) = zelcandry_join;
static uint64_t (*const put)(uint8_t, uint8_t *, size_t, const uint8_t *, size_t) = zelcandry_put;
static uint64_t (*const take)(uint8_t, const uint8_t *, size_t, uint8_t *, size_t) = zelcandry_take;

/* ---- lent memory: a room between two stretches that may be neither read nor written. What is lent stands at one end of it, so
 * that a step over that end ends the program; a zone of the room beside the other end is seen to be untouched. */
enum { ROOM = 1 << 16, ZONE = 256, STATE = 125, BANDS = 81, RUNS = 6 };

struct lent {
    uint8_t *room, *at;
    size_t len;
    uint8_t was[ROOM];
};

static struct lent state, samples, octets, low, high, data;
static struct lent *const all[RUNS] = {&state, &samples, &octets, &low, &high, &data};
static int at_end;   /* which end of the room */
static uint8_t mode; /* what the next call is told */
static unsigned long calls;

static void fault(const char *what, uint64_t got, uint64_t want)
{
    printf("host: FAILED: %s: answer %llx, wanted %llx; mode %d, lengths", what, (unsigned long long)got, (unsigned long long)want,
           mode);
    for (int i = 0; i < RUNS; i++)
        printf(" %lu", (unsigned long)all[i]->len);
    printf("\n");
    exit(1);
}

static uint8_t chance(void)
{
    static uint32_t seed = 1;
    seed = seed * 1664525u + 1013904223u;
    return (uint8_t)(seed >> 24);
}

static void make_rooms(void)
{
    for (int i = 0; i < RUNS; i++) {
        uint8_t *p = (uint8_t *)mmap(NULL, 3 * ROOM, PROT_NONE, MAP_PRIVATE | MAP_ANONYMOUS, -1, 0);
        if (p == (uint8_t *)MAP_FAILED || mprotect(p + ROOM, ROOM, PROT_READ | PROT_WRITE))
            fault("no memory", 0, 0);
        all[i]->room = p + ROOM;
    }
}

/* Lends so many bytes of a room, which is filled with anything first. */
static void lend(struct lent *l, size_t len)
{
    l->len = len;
    l->at = at_end ? l->room + ROOM - len : l->room;
    for (size_t i = 0; i < len + ZONE; i++)
        (at_end ? l->at - ZONE : l->at)[i] = chance();
}

/* Compares what is lent, or only its zone, with what it was. */
static int touched(const struct lent *l, int whole)
{
    const uint8_t *zone = at_end ? l->at - ZONE : l->at + l->len;
    return memcmp(zone, l->was + (zone - l->room), ZONE) || (whole && memcmp(l->at, l->was + (l->at - l->room), l->len));
}

/* ---- what is asked of samples, signals and states: SCOPE 2 and 14 to 22 */
static int value(const uint8_t *p)
{
    int x = 256 * p[0] + p[1];
    return x < 32768 ? x : x - 65536;
}

static void put_value(uint8_t *p, int x)
{
    p[0] = (uint8_t)(x >> 8 & 255);
    p[1] = (uint8_t)(x & 255);
}

/* The index of the first of n values that is out of range, or n. */
static size_t first_bad(const uint8_t *p, size_t n)
{
    size_t i = 0;
    while (i < n && -16384 <= value(p + 2 * i) && value(p + 2 * i) <= 16383)
        i++;
    return i;
}

/* The scale factor by the second method of G.722, 6: Table 15, and a shift. */
static int scale_of(int log, int full)
{
    static const int ilb[32] = {2048, 2093, 2139, 2186, 2233, 2282, 2332, 2383, 2435, 2489, 2543, 2599, 2656, 2714, 2774, 2834,
                                2896, 2960, 3025, 3091, 3158, 3228, 3298, 3371, 3444, 3520, 3597, 3676, 3756, 3838, 3922, 4008};
    int x = ilb[log >> 6 & 31], places = full - (log >> 11);
    return 4 * (places < 0 ? x << -places : x >> places);
}

static int good_band(const uint8_t *p, int most, int full)
{
    int a1 = value(p + 24), a2 = value(p + 26), log = value(p + 36), scale = value(p + 38);
    return -12288 <= a2 && a2 <= 12288 && a2 - 15360 <= a1 && a1 <= 15360 - a2 && 0 <= log && log <= most
        && scale == scale_of(log, full);
}

static int good_state(uint8_t kind)
{
    const uint8_t *p = state.at;
    return state.len == STATE && p[0] == kind && good_band(p + 1, 18432, 8) && good_band(p + 41, 22528, 10)
        && first_bad(p + BANDS, 22) == 22;
}

/* ---- a call of each kind, what it must answer, and what it may write. Those up to JOIN have a state. */
enum call { CODE, DECODE, HEAR, JOIN, PUT, TAKE, CALLS };

static int reads(enum call c, const struct lent *l)
{
    return (l == &samples && c == CODE) || (l == &octets && (c == DECODE || c == HEAR || c == TAKE))
        || ((l == &low || l == &high) && c == JOIN) || (l == &data && c == PUT);
}

static int writes(enum call c, const struct lent *l)
{
    return (l == &state && c <= JOIN) || (l == &octets && (c == CODE || c == PUT)) || (l == &samples && (c == DECODE || c == JOIN))
        || ((l == &low || l == &high) && c == HEAR) || (l == &data && c == TAKE);
}

static uint64_t expected(enum call c)
{
    size_t n = c == JOIN ? low.len / 2 : octets.len, first;
    int steps = c == HEAR || c == JOIN;
    if (c != CODE && c != JOIN && mode > 3)
        return 1;
    if (c == PUT || c == TAKE)
        return mode < 2 ? 5 : n > 8000 || 8 * data.len != (mode - 1) * n ? 3 : 0;
    if (n > 8000 || (c != HEAR && samples.len != 4 * n) || (steps && (low.len != 2 * n || high.len != 2 * n)))
        return 3;
    if (!good_state(c == CODE ? 1 : 2))
        return 2;
    if (c == CODE)
        return (first = first_bad(samples.at, 2 * n)) < 2 * n ? 4 + 256 * (uint64_t)first : 0;
    /* of a pair either may be the one */
    return c == JOIN && (first = first_bad(high.at, first_bad(low.at, n))) < n ? 4 + 256 * (uint64_t)first : 0;
}

/* ---- what must be limited: SCOPE 39 and 41. A value is its sum divided and rounded down, so it is out of range where the sum is
 * not from -16384 to just below 16384 times the divisor. */
enum { SENT = 22, PAIRS = 11, MOST = 8000 };

static int beyond(long sum, long divisor)
{
    return sum < -16384 * divisor || sum >= 16384 * divisor;
}

/* A coefficient of both filters, G.722 (11/88), Table 11. */
static int h(int i)
{
    static const int half[12] = {3, -11, -11, 53, 12, -156, 32, 362, -210, -805, 951, 3876};
    return half[i < 12 ? i : 23 - i];
}

/* The state before the call. */
static const uint8_t *state_was(void)
{
    return state.was + (state.at - state.room);
}

/* How many of XL and XH are limited where these are coded: the samples of the state, and then n pairs. */
static size_t sent_limited(const uint8_t *given, size_t n)
{
    static int x[SENT + 2 * MOST];
    size_t limited = 0;
    for (size_t i = 0; i < SENT + 2 * n; i++)
        x[i] = value(i < SENT ? state_was() + BANDS + 2 * i : given + 2 * (i - SENT));
    for (size_t newest = SENT + 1; newest < SENT + 2 * n; newest += 2) {
        long even = 0, odd = 0;
        for (int i = 0; i < 24; i += 2) {
            even += (long)h(i) * x[newest - i];
            odd += (long)h(i + 1) * x[newest - i - 1];
        }
        limited += beyond(even + odd, 8192) + beyond(even - odd, 8192);
    }
    return limited;
}

/* How many samples are limited where these are joined: the pairs of the state, and then n low and high signals. */
static size_t joined_limited(const uint8_t *lows, const uint8_t *highs, size_t n)
{
    static int rl[PAIRS + MOST], rh[PAIRS + MOST];
    size_t limited = 0;
    for (size_t i = 0; i < PAIRS + n; i++) {
        rl[i] = value(i < PAIRS ? state_was() + BANDS + 2 * i : lows + 2 * (i - PAIRS));
        rh[i] = value(i < PAIRS ? state_was() + BANDS + 2 * (PAIRS + i) : highs + 2 * (i - PAIRS));
    }
    for (size_t newest = PAIRS; newest < PAIRS + n; newest++) {
        long first = 0, second = 0;
        for (int i = 0; i < 12; i++) {
            first += (long)h(2 * i) * (rl[newest - i] - rh[newest - i]);
            second += (long)h(2 * i + 1) * (rl[newest - i] + rh[newest - i]);
        }
        limited += beyond(first, 4096) + beyond(second, 4096);
    }
    return limited;
}

/* How many of n values stand at an end of the range, as all do that were limited. */
static size_t at_ends(const uint8_t *p, size_t n)
{
    size_t count = 0;
    for (size_t i = 0; i < n; i++)
        count += value(p + 2 * i) == -16384 || value(p + 2 * i) == 16383;
    return count;
}

/* Whether a call that was done may have this count. That of a decoding is known where all its pairs are still in the state; else, and
 * for heard signals, only how many values stand at the ends is known here, and the worked counts and in_turn say more. */
static int right_count(enum call c, size_t count)
{
    size_t n = octets.len;
    const uint8_t *past = state.at + BANDS;
    switch (c) {
    case CODE:
        return count == sent_limited(samples.at, n);
    case JOIN:
        return count == joined_limited(low.at, high.at, low.len / 2);
    case DECODE:
        if (n > PAIRS)
            return count <= at_ends(samples.at, 2 * n);
        return count == joined_limited(past + 2 * (PAIRS - n), past + 2 * (2 * PAIRS - n), n);
    case HEAR:
        return count <= at_ends(low.at, n) + at_ends(high.at, n);
    default:
        return count == 0;
    }
}

static uint64_t made(enum call c)
{
    switch (c) {
    case CODE:
        return code(state.at, state.len, samples.at, samples.len, octets.at, octets.len);
    case DECODE:
        return decode(state.at, state.len, mode, octets.at, octets.len, samples.at, samples.len);
    case HEAR:
        return hear(state.at, state.len, mode, octets.at, octets.len, low.at, low.len, high.at, high.len);
    case JOIN:
        return join(state.at, state.len, low.at, low.len, high.at, high.len, samples.at, samples.len);
    case PUT:
        return put(mode, octets.at, octets.len, data.at, data.len);
    default:
        return take(mode, octets.at, octets.len, data.at, data.len);
    }
}

static size_t counted;                          /* the count of the last attempt */
static unsigned long lit[CALLS], dark[CALLS]; /* calls of each kind that limited something, and that are done and did not */

/* Makes a call and looks at all that may be seen of it. Gives the number back. */
static unsigned attempt(const char *what, enum call c)
{
    uint64_t want = expected(c), got;
    for (int i = 0; i < RUNS; i++) {
        uint8_t *from = at_end ? all[i]->at - ZONE : all[i]->at;
        memcpy(all[i]->was + (from - all[i]->room), from, all[i]->len + ZONE);
    }
    got = made(c);
    calls++;
    if ((uint32_t)got != want || zelcandry_number(got) != (want & 255) || zelcandry_index(got) != want >> 8
        || zelcandry_limited(got) != got >> 32)
        fault(what, got, want);
    counted = zelcandry_limited(got);
    if (want == 0 ? !right_count(c, counted) : counted != 0)
        fault("another count of limited values", got, want);
    lit[c] += want == 0 && counted != 0;
    dark[c] += want == 0 && counted == 0;
    for (int i = 0; i < RUNS; i++)
        if (touched(all[i], want != 0 || !writes(c, all[i])))
            fault("memory was touched", got, want);
    if (want == 0 && c <= JOIN && !good_state(c == CODE ? 1 : 2))
        fault("a broken state was left", got, want);
    if (want == 0 && c == HEAR && memcmp(state.at + BANDS, state_was() + BANDS, STATE - BANDS))
        fault("the first step moved the past pairs", got, want);
    if (want == 0 && c == JOIN && memcmp(state.at, state_was(), BANDS))
        fault("the second step moved a band", got, want);
    return zelcandry_number(got);
}

/* Lends values of two bytes that are all in range. */
static void lend_values(struct lent *l, size_t n)
{
    lend(l, 2 * n);
    for (size_t i = 0; i < 2 * n; i += 2)
        l->at[i] = (uint8_t)((l->at[i] & 127) - 64);
}

/* Lends all that a good call of n octets needs. The state is one in the middle of a run. */
static void lend_good(enum call c, size_t n)
{
    static uint8_t run[2][STATE] = {ZELCANDRY_CODER_RESET, ZELCANDRY_DECODER_RESET};
    static size_t moved[2];
    int end = c != CODE;
    lend(&state, STATE);
    lend_values(&samples, 2 * n);
    lend(&octets, n);
    lend_values(&low, n);
    lend_values(&high, n);
    lend(&data, mode == 2 || mode == 3 ? (mode - 1) * n / 8 : 0);
    if (c > JOIN)
        return;
    memcpy(state.at, run[end], STATE);
    if (moved[end] < 2000 && expected(c) == 0 && attempt("a run", c) == 0) {
        memcpy(run[end], state.at, STATE);
        moved[end] += n;
    }
}

/* ---- the tests */
static void sums(void)
{
    static const uint8_t reset[2][STATE] = {ZELCANDRY_CODER_RESET, ZELCANDRY_DECODER_RESET};
    static const struct { enum call c; uint8_t mode; const char *octets, *other, *left; int n, m; } rows[] = {
        {CODE, 0, "", "\0\0\0\0", "\xFA", 1, 4},                                     /* sum 1 */
        {DECODE, 0, "\xFA", "", "\0\0\xFF\xFF", 1, 4}, {DECODE, 1, "\xFA", "", "\0\0\xFF\xFF", 1, 4}, /* sum 4 */
        {DECODE, 3, "\xFA", "", "\0\0\xFF\xFF", 1, 4}, {DECODE, 2, "\xFA", "", "\0\0\0\0", 1, 4},
        {DECODE, 3, "\xF8", "", "\0\0\xFF\xFF", 1, 4}, {DECODE, 3, "\xF9", "", "\0\0\xFF\xFF", 1, 4}, /* sum 5 */
        {DECODE, 3, "\xFB", "", "\0\0\xFF\xFF", 1, 4},
        {DECODE, 1, "\xFF", "", "\xFF\xFF\0\0", 1, 4}, {DECODE, 3, "\xFF", "", "\0\0\0\0", 1, 4},     /* sum 6 */
        {PUT, 3, "\xFA\xFA\xFA\xFA", "\xB1", "\xFA\xFB\xF8\xF9", 4, 1},              /* sum 9 */
        {TAKE, 3, "\xFA\xFB\xF8\xF9", "", "\xB1", 4, 1},
        {PUT, 2, "\xFA\xFA\xFA\xFA\xFA\xFA\xFA\xFA", "\x81", "\xFB\xFA\xFA\xFA\xFA\xFA\xFA\xFB", 8, 1}, /* sum 10 */
        {TAKE, 2, "\xFB\xFA\xFA\xFA\xFA\xFA\xFA\xFB", "", "\x81", 8, 1},
    };
    for (size_t i = 0; i < sizeof rows / sizeof *rows; i++) {
        enum call c = rows[i].c;
        struct lent *other = c <= DECODE ? &samples : &data, *out = c == CODE || c == PUT ? &octets : other;
        mode = rows[i].mode;
        lend_good(PUT, 0);
        lend(&octets, rows[i].n);
        lend(other, rows[i].m);
        memcpy(state.at, reset[c == DECODE], STATE);
        if (c != CODE)
            memcpy(octets.at, rows[i].octets, rows[i].n);
        if (c == CODE || c == PUT)
            memcpy(other->at, rows[i].other, rows[i].m);
        if (attempt("a worked sum", c) != 0 || memcmp(out->at, rows[i].left, out->len))
            fault("a worked sum came out otherwise", i, 0);
    }
}

/* One octet and one pair at reset: signals by the output values of G.722 (11/88), 6, with the scale factors 32 and 8, and samples by
 * the filter's first two coefficients, 3 and -11. */
static void step_sums(void)
{
    static const uint8_t reset[STATE] = ZELCANDRY_DECODER_RESET;
    static const struct { enum call c; uint8_t mode, octet; int low, high, first, second; } rows[] = {
        {HEAR, 1, 0xFA, 1, 0, 0, 0}, {HEAR, 2, 0xFA, 0, 0, 0, 0}, {HEAR, 0, 0xFF, -1, 0, 0, 0}, {HEAR, 3, 0xFF, 0, 0, 0, 0},
        {HEAR, 1, 0x97, -4, 1, 0, 0}, {HEAR, 3, 0x97, -5, 1, 0, 0}, {HEAR, 0, 0x04, -25, -2, 0, 0}, {HEAR, 1, 0x04, -25, -2, 0, 0},
        {HEAR, 2, 0x04, -23, -2, 0, 0}, {HEAR, 3, 0x04, -20, -2, 0, 0}, {JOIN, 0, 0, 16383, -16384, 23, 0},
        {JOIN, 0, 0, -16384, 16383, -24, 0}, {JOIN, 0, 0, 16383, 16383, 0, -88}, {JOIN, 0, 0, -16384, -16384, 0, 88},
    };
    for (size_t i = 0; i < sizeof rows / sizeof *rows; i++) {
        enum call c = rows[i].c;
        mode = rows[i].mode;
        lend_good(PUT, 1);
        memcpy(state.at, reset, STATE);
        octets.at[0] = rows[i].octet;
        if (c == JOIN) {
            put_value(low.at, rows[i].low);
            put_value(high.at, rows[i].high);
        }
        if (attempt("a worked step", c) != 0 || value(low.at) != rows[i].low || value(high.at) != rows[i].high
            || (c == JOIN && (value(samples.at) != rows[i].first || value(samples.at + 2) != rows[i].second)))
            fault("a worked step came out otherwise", i, 0);
    }
}

/* Heard signals that come to an end of the range by themselves, which is not counted, and one step beyond. Prediction is the whole of
 * them: a first coefficient of 16384 or -16384 and a past difference of 16384, whose double stops at 32767, give 16383 and -16384. The
 * octet adds what it is in step_sums; its upper bits 11, 10, 01 and 00 add 0, 1, -1 and -2 to the high signal. */
static void heard_counts(void)
{
    static const uint8_t reset[STATE] = ZELCANDRY_DECODER_RESET;
    static const struct { int low, high; uint8_t mode, octet; size_t count; } rows[] = {
        {16384, 0, 2, 0xFA, 0}, {16384, 0, 1, 0xFA, 1}, {-16384, 0, 3, 0xFF, 0}, {-16384, 0, 0, 0xFF, 1},
        {0, 16384, 2, 0xFA, 0}, {0, 16384, 2, 0xBA, 1}, {0, -16384, 2, 0xFA, 0}, {0, -16384, 2, 0x7A, 1}, {0, -16384, 2, 0x3A, 1},
        {16384, 16384, 2, 0xBA, 1}, {16384, 16384, 1, 0xFA, 1}, {16384, 16384, 1, 0xBA, 2}, {-16384, -16384, 1, 0x3F, 2},
        {16384, -16384, 2, 0xFA, 0}, {0, 0, 1, 0xBA, 0},
    };
    for (size_t i = 0; i < 2 * sizeof rows / sizeof *rows; i++) {
        int b[2] = {rows[i / 2].low, rows[i / 2].high};
        enum call c = i % 2 ? DECODE : HEAR;
        mode = rows[i / 2].mode;
        lend_good(PUT, 1);
        memcpy(state.at, reset, STATE);
        for (int band = 0; band < 2; band++) {
            put_value(state.at + 1 + 40 * band + 10, b[band]);
            put_value(state.at + 1 + 40 * band + 22, 16384);
        }
        octets.at[0] = rows[i / 2].octet;
        if (attempt("a worked count", c) != 0 || counted != (c == HEAR ? rows[i / 2].count : 0))
            fault("a worked count of signals came out otherwise", i, rows[i / 2].count);
        for (int band = 0; band < 2 && c == HEAR; band++)
            if (b[band] && value(band ? high.at : low.at) != (b[band] < 0 ? -16384 : 16383))
                fault("a worked signal is not at the end", i, 0);
    }
}

/* What comes out of the filters where all that goes in is at one end: it is at that end too, since the even coefficients add up to 4096
 * and so do the odd ones. Where 0 stands in the place that meets a coefficient of -11, it is beyond. So XL of equal samples, XH of
 * samples in turn at both ends, and the samples of equal pairs; of these the oldest meets -11 and 3, and the newest 3 and -11. The octet
 * FA in mode 2 is a pair of zeros. */
static void filter_counts(void)
{
    static const uint8_t reset[2][STATE] = {ZELCANDRY_CODER_RESET, ZELCANDRY_DECODER_RESET};
    static const struct { enum call c; int one, other, zero, newest; size_t count; } rows[] = {
        {CODE, 16383, 16383, -1, 1, 0}, {CODE, 16383, 16383, 1, 1, 1}, {CODE, -16384, -16384, -1, 1, 0}, {CODE, -16384, -16384, 1, 1, 1},
        {CODE, 16383, -16384, -1, 1, 0}, {CODE, 16383, -16384, 1, 1, 1}, {CODE, -16384, 16383, -1, 1, 0}, {CODE, -16384, 16383, 1, 1, 1},
        {JOIN, 16383, 0, -1, 1, 0}, {JOIN, 16383, 0, 0, 1, 1}, {JOIN, 16383, 0, 0, 0, 2}, {JOIN, 16383, 0, -1, 0, 1},
        {JOIN, -16384, 0, -1, 1, 0}, {JOIN, -16384, 0, 0, 1, 1}, {JOIN, -16384, 0, 0, 0, 2}, {JOIN, 0, 16383, -1, 1, 0},
        {JOIN, 0, 16383, 11, 1, 1}, {JOIN, 0, 16383, 11, 0, 2}, {DECODE, 16383, 0, 0, 0, 2}, {DECODE, -16384, 0, -1, 0, 1},
        {DECODE, 0, 16383, 11, 0, 2}, {DECODE, 0, 0, -1, 0, 0},
    };
    for (size_t i = 0; i < sizeof rows / sizeof *rows; i++) {
        enum call c = rows[i].c;
        int one = rows[i].one, other = rows[i].other;
        mode = 2;
        lend_good(PUT, 1);
        memcpy(state.at, reset[c != CODE], STATE);
        for (int k = 0; k < 22; k++)
            put_value(state.at + BANDS + 2 * k, k == rows[i].zero ? 0 : (c == CODE ? k % 2 : k < PAIRS) ? one : other);
        if (c == CODE) {
            put_value(samples.at, other);
            put_value(samples.at + 2, one);
        }
        put_value(low.at, rows[i].newest ? one : 0);
        put_value(high.at, rows[i].newest ? other : 0);
        if (c == DECODE)
            octets.at[0] = 0xFA;
        if (attempt("a worked count", c) != 0 || counted != rows[i].count)
            fault("a worked count came out otherwise", i, rows[i].count);
    }
}

/* Every length from 0 to two more than fits, of each thing lent; of long calls those near it. */
static void lengths(enum call c, size_t n)
{
    for (int i = 1; i < RUNS; i++) {
        lend_good(c, n);
        size_t fitting = all[i]->len, most = reads(c, all[i]) || writes(c, all[i]) ? fitting + 2 : 0;
        for (size_t k = 0; k <= most; k += n > 160 && k + 2 < fitting ? fitting - 2 - k : 1) {
            lend_good(c, n);
            lend(all[i], k);
            memset(all[i]->at, 0, k);
            attempt("a length", c);
        }
    }
    for (size_t k = 0; k <= STATE + 2; k++) {
        lend_good(c, n);
        uint8_t kept[STATE + 2] = {0};
        memcpy(kept, state.at, STATE);
        lend(&state, k);
        memcpy(state.at, kept, k);
        attempt("a length of the state", c);
    }
}

/* Small lengths of all that a step is lent, each with each. */
static void step_lengths(enum call c)
{
    struct lent *const lent[3] = {&low, &high, c == HEAR ? &octets : &samples};
    for (size_t k = 0; k < 6 * 6 * 12; k++) {
        const size_t len[3] = {k % 6, k / 6 % 6, k / 36};
        lend_good(c, 1);
        for (int i = 0; i < 3; i++) {
            lend(lent[i], len[i]);
            memset(lent[i]->at, 0, len[i]);
        }
        attempt("small lengths", c);
    }
}

static void data_lengths(enum call c, size_t from, size_t to, size_t bytes)
{
    for (mode = 2; mode <= 3; mode++)
        for (size_t n = from; n <= to; n++)
            for (size_t k = bytes * (mode - 1) < 43 ? 0 : bytes * (mode - 1) - 3; k <= bytes * (mode - 1) + 3; k++) {
                lend_good(c, n);
                lend(&data, k);
                attempt("a length of data", c);
            }
}

static void modes(enum call c)
{
    for (int told = 0; told < 256; told++)
        for (int more = 0; more < 2; more++) {
            mode = 2;
            lend_good(c, 16);
            lend(&octets, 16 + more);
            mode = (uint8_t)told;
            attempt("a mode", c);
        }
}

/* A state that is no good: too short, another end's, or broken. */
static void spoil_state(int way)
{
    uint8_t kept[STATE];
    memcpy(kept, state.at, STATE);
    kept[0] ^= way == 1 ? 3 : 0;
    kept[40] ^= way == 2 ? 1 : 0;
    lend(&state, way == 0 ? STATE - 1 : STATE);
    memcpy(state.at, kept, state.len);
}

/* Several faults at once: the answer is the first of them in the call's own order. */
static void orders(int way)
{
    static const uint8_t order[CALLS][3] = {{3, 2, 4}, {1, 3, 2}, {1, 3, 2}, {3, 2, 4}, {1, 5, 3}, {1, 5, 3}};
    for (int c = 0; c < CALLS; c++)
        for (int faults = 0; faults < 8; faults++) {
            unsigned want = 0;
            mode = 2;
            lend_good((enum call)c, 16);
            for (int i = 2; i >= 0; i--)
                if (faults >> i & 1)
                    switch (want = order[c][i]) {
                    case 1: mode = 4; break;
                    case 2: spoil_state(way); break;
                    case 3: lend(c == JOIN ? &high : &octets, 17); break;
                    case 4: (c == JOIN ? &low : &samples)->at[2] = 0x40; break;
                    default: mode = 1;
                    }
            if (attempt("faults at once", (enum call)c) != want)
                fault("another order of refusals", (uint64_t)faults, want);
        }
}

/* Each byte of a state with each value; and the state of the other end. */
static void spoilt(enum call c)
{
    mode = 1;
    for (int i = 0; i < STATE; i++)
        for (int x = 0; x < 256; x++) {
            lend_good(c, 1);
            state.at[i] = (uint8_t)x;
            attempt("a spoilt state", c);
        }
    lend_good(c == CODE ? DECODE : CODE, 1);
    lend_values(&samples, 2);
    if (attempt("the other end's state", c) != ZELCANDRY_BAD_STATE)
        fault("the other end's state was taken", 0, 2);
}

/* The values next to the range and those at the ends of 16 bits. */
static const int out[] = {16384, -16385, 32767, -32768};

static void bad_samples(size_t n)
{
    for (size_t i = 0; i < 2 * n; i += n > 160 ? n / 4 - 1 : 1)
        for (int k = 0; k < 4; k++) {
            lend_good(CODE, n);
            put_value(samples.at + 2 * i, out[k]);
            samples.at[4 * n - 2] = k < 2 ? 0x7F : samples.at[4 * n - 2];
            if (attempt("a sample out of range", CODE) != ZELCANDRY_BAD_SAMPLE)
                fault("a sample out of range was taken", i, 4);
        }
    lend_good(CODE, n);
    for (size_t i = 0; i < 2 * n; i++)
        put_value(samples.at + 2 * i, i % 2 ? -16384 : 16383);
    if (attempt("both ends of the range", CODE) != 0)
        fault("both ends of the range were refused", 0, 0);
}

/* The first bad pair at the beginning, in the middle and at the end: in the low signals, the high ones, both, and both with the other
 * later. */
static void bad_pairs(size_t n)
{
    const size_t places[] = {0, n / 3, n / 2, n - 1};
    for (size_t i = 0; i < 4; i++)
        for (int k = 0; k < 20; k++) {
            int who = k / 4;
            lend_good(JOIN, n);
            if (who != 1)
                put_value(low.at + 2 * (who == 4 ? n - 1 : places[i]), out[k % 4]);
            if (who != 0)
                put_value(high.at + 2 * (who == 3 ? n - 1 : places[i]), out[3 - k % 4]);
            if (attempt("a signal out of range", JOIN) != ZELCANDRY_BAD_SAMPLE)
                fault("a signal out of range was taken", places[i], 4);
        }
    lend_good(JOIN, n);
    for (size_t i = 0; i < n; i++) {
        put_value(low.at + 2 * i, i % 2 ? 16383 : -16384);
        put_value(high.at + 2 * i, i % 3 ? 16383 : -16384);
    }
    if (attempt("both ends of the range", JOIN) != 0)
        fault("both ends of the range were refused", 0, 0);
}

/* The two steps in turn are the one call: the same samples, the same state and the same count of samples. The second is cut in another
 * place than the first. */
static void in_turn(size_t n, size_t cut)
{
    static uint8_t kept[STATE], heard[ROOM], left[STATE];
    for (mode = 0; mode <= 3; mode++) {
        lend_good(DECODE, n);
        memcpy(kept, state.at, STATE);
        attempt("in one", DECODE);
        size_t in_one = counted;
        memcpy(left, state.at, STATE);
        memcpy(heard, samples.at, 4 * n);
        memcpy(state.at, kept, STATE);
        attempt("the first step", HEAR);
        size_t rest = n - cut;
        memset(samples.at, 0xA5, 4 * n);
        uint64_t a = join(state.at, STATE, low.at, 2 * cut, high.at, 2 * cut, samples.at, 4 * cut);
        uint64_t b = join(state.at, STATE, low.at + 2 * cut, 2 * rest, high.at + 2 * cut, 2 * rest, samples.at + 4 * cut, 4 * rest);
        if (zelcandry_number(a) || zelcandry_number(b))
            fault("the second step is refused", n, cut);
        if (memcmp(state.at, left, STATE) || memcmp(samples.at, heard, 4 * n))
            fault("the two steps in turn are not the one", n, cut);
        if (zelcandry_limited(a) + zelcandry_limited(b) != in_one)
            fault("the two steps in turn have another count", zelcandry_limited(a) + zelcandry_limited(b), in_one);
    }
}

/* A length of 0 asks for no memory. */
static void nulls(void)
{
    uint8_t both[2][STATE] = {ZELCANDRY_CODER_RESET, ZELCANDRY_DECODER_RESET};
    if (code(both[0], STATE, NULL, 0, NULL, 0) || decode(both[1], STATE, 1, NULL, 0, NULL, 0) || put(2, NULL, 0, NULL, 0)
        || take(3, NULL, 0, NULL, 0) || code(NULL, 0, NULL, 0, NULL, 0) != 2 || decode(NULL, 0, 0, NULL, 0, NULL, 0) != 2
        || hear(both[1], STATE, 1, NULL, 0, NULL, 0, NULL, 0) || join(both[1], STATE, NULL, 0, NULL, 0, NULL, 0)
        || hear(NULL, 0, 0, NULL, 0, NULL, 0, NULL, 0) != 2 || join(NULL, 0, NULL, 0, NULL, 0, NULL, 0) != 2)
        fault("null with a length of 0", 0, 0);
}

/* The stack that the calls take: on one of their own, filled before. */
static uint8_t stack[1 << 17];
static ucontext_t here, there;

static void deepest(void)
{
    mode = 2;
    lend_good(CODE, 8000);
    made(CODE);
    lend_good(DECODE, 8000);
    made(DECODE);
    made(HEAR);
    made(PUT);
    made(TAKE);
}

static void joining(void)
{
    lend_good(JOIN, 8000);
    made(JOIN);
}

static size_t stack_used(void (*by)(void))
{
    size_t left = 0;
    memset(stack, 0xA5, sizeof stack);
    getcontext(&there);
    there.uc_stack.ss_sp = stack;
    there.uc_stack.ss_size = sizeof stack;
    there.uc_link = &here;
    makecontext(&there, by, 0);
    swapcontext(&here, &there);
    while (left < sizeof stack && stack[left] == 0xA5)
        left++;
    return sizeof stack - left;
}

/* What only the whole run can say: the stack, and that each call was seen to limit something, and to limit nothing. */
static void report(void)
{
    size_t used = stack_used(deepest), joined = stack_used(joining);
    if (used > 40000 || joined > 72000)
        fault("stack", used, joined);
    for (int c = CODE; c <= JOIN; c++)
        if (lit[c] < 10 || dark[c] < 10)
            fault("few calls limited something, or few did not", lit[c], dark[c]);
    printf("host: %lu calls as they must be; stack %lu bytes, %lu of join; limited in %lu calls of code, %lu of decode, %lu of hear, "
           "%lu of join\n", calls, (unsigned long)used, (unsigned long)joined, lit[CODE], lit[DECODE], lit[HEAR], lit[JOIN]);
}

int main(void)
{
    static const size_t sizes[] = {0, 1, 160, 7999, 8000, 8001};
    make_rooms();
    for (at_end = 0; at_end < 2; at_end++) {
        for (int c = CODE; c <= JOIN; c++) {
            mode = 3;
            for (size_t i = 0; i < sizeof sizes / sizeof *sizes; i++)
                lengths((enum call)c, sizes[i]);
            spoilt((enum call)c);
        }
        step_lengths(HEAR);
        step_lengths(JOIN);
        for (int c = PUT; c <= TAKE; c++) {
            data_lengths((enum call)c, 0, 162, 20);
            data_lengths((enum call)c, 7991, 8009, 1000);
        }
        for (int c = DECODE; c <= TAKE; c++)
            modes((enum call)c);
        sums();
        step_sums();
        heard_counts();
        filter_counts();
        for (int way = 0; way < 3; way++)
            orders(way);
        bad_samples(160);
        bad_samples(8000);
        for (size_t i = 1; i < sizeof sizes / sizeof *sizes - 1; i++) {
            bad_pairs(sizes[i]);
            in_turn(sizes[i], sizes[i - 1]);
            in_turn(sizes[i], sizes[i] / 3);
        }
    }
    at_end = 0;
    nulls();
    report();
    return 0;
}
