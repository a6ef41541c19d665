/* A fuzz target for each function of sillurwy.h: bytes become its arguments. A call must return the
 * refusal that the header says, must touch nothing but what was lent to it, must leave what was lent
 * to be read as it was, and after a refusal everything; an answer must lie in its range.
 *
 *   fuzz [--seed N] [--cases N] [--only NAME] [--from N] [--mistake N [--in BUFFER]]
 *
 * Each case has bytes of its own, made from the seed, the target and the number of the case. With
 * -DLIBFUZZER the bytes come from libFuzzer: the first one picks the target, unless the variable
 * SILLURWY_FUZZ_ONLY names one. */
#define _DEFAULT_SOURCE
#include "lent.h"
#include "sillurwy.h"

#include <math.h>
#include <signal.h>
#include <stdio.h>
#include <stdlib.h>
#include <string.h>
#include <unistd.h>

/* ---- What runs now ---- */

static const char *running = "none";
static unsigned long refusals;
static enum mistake mistake;
static const char *mistaken = ""; /* the buffer of a mistake in an answer */

#ifdef LIBFUZZER

/* libFuzzer keeps the bytes of what aborts. */
void problem(const char *what, const char *name, long place)
{
    fprintf(stderr, "fuzz: %s: %s %s[%ld]\n", running, what, name, place);
    abort();
}

#else

static unsigned long long running_seed;
static unsigned long running_case;

static void tell_case(void)
{
    fprintf(stderr, "fuzz: to repeat it: --seed %llu --only %s --from %lu --cases 1\n",
            running_seed, running, running_case);
}

void problem(const char *what, const char *name, long place)
{
    fprintf(stderr, "fuzz: %s: %s %s[%ld]\n", running, what, name, place);
    tell_case();
    exit(1);
}

#endif

/* ---- Bytes become arguments. Past the end they are zeros. ---- */

struct bytes {
    const uint8_t *data;
    size_t size;
    size_t at;
};

static uint8_t a_byte(struct bytes *in)
{
    return in->at < in->size ? in->data[in->at++] : 0;
}

static uint64_t a_number(struct bytes *in, size_t bytes)
{
    uint64_t value = 0;
    for (size_t i = 0; i < bytes; i++) {
        value = value << 8 | a_byte(in);
    }
    return value;
}

static size_t below(struct bytes *in, size_t bound)
{
    return (size_t)(a_number(in, 4) % bound);
}

static double double_of(uint64_t bits)
{
    double value;
    memcpy(&value, &bits, sizeof value);
    return value;
}

static double a_double(struct bytes *in)
{
    return double_of(a_number(in, 8));
}

static float a_float(struct bytes *in)
{
    uint32_t bits = (uint32_t)a_number(in, 4);
    float value;
    memcpy(&value, &bits, sizeof value);
    return value;
}

/* A mode, a phase or a filter: mostly good. */
static uint8_t a_mode(struct bytes *in)
{
    uint8_t byte = a_byte(in);
    return byte < 240 ? (uint8_t)(1 + byte % 3) : a_byte(in);
}

static uint8_t a_phase(struct bytes *in)
{
    uint8_t byte = a_byte(in);
    return byte < 240 ? byte % 4 : a_byte(in);
}

static uint8_t a_filter(struct bytes *in)
{
    uint8_t byte = a_byte(in);
    return byte < 240 ? byte % 3 : a_byte(in);
}

/* A length: mostly the right one, else one next to it, none, or any up to about twice as much. */
static size_t a_length(struct bytes *in, size_t right)
{
    uint8_t byte = a_byte(in);
    if (byte < 208) {
        return right;
    }
    if (byte < 224) {
        return right > 0 ? right - 1 : 0;
    }
    if (byte < 240) {
        return right + 1;
    }
    return byte < 244 ? 0 : below(in, 2 * right + 3);
}

/* A number that is mostly at most the bound, else next to it, of any size, or at most the bound in
 * its low 32 bits alone. */
static size_t a_bounded(struct bytes *in, size_t bound)
{
    uint8_t byte = a_byte(in);
    if (byte < 208) {
        return below(in, bound + 1);
    }
    if (byte < 240) {
        return bound + byte % 3;
    }
    if (byte < 248) {
        return (size_t)a_number(in, 8) >> 8 * (byte % 8);
    }
    return below(in, bound + 1) + ((size_t)1 << (32 + 4 * (byte % 8)));
}

/* ---- What is lent ---- */

static void *a_buffer(struct bytes *in, const char *name, size_t len, size_t size)
{
    return lent(name, len, size, TO_WRITE, a_byte(in) % 2 == 0);
}

/* The same of floats or doubles, half of them NaNs. */
static void *a_float_buffer(struct bytes *in, const char *name, size_t len, size_t size)
{
    void *at = a_buffer(in, name, len, size);
    lent_nans(a_byte(in));
    return at;
}

/* Numbers of bytes: kinds, modes or guards. */
struct codes {
    const uint8_t *at;
    size_t len;
};

static struct codes a_list(struct bytes *in, const char *name, size_t len, const uint8_t *good,
                           size_t goods)
{
    uint8_t *at = lent(name, len, 1, TO_READ, a_byte(in) % 2 == 0);
    uint8_t bad = a_byte(in);
    for (size_t i = 0; i < len; i++) {
        at[i] = good[a_byte(in) % goods];
    }
    if (bad >= 240 && len > 0) {
        at[a_byte(in) % len] = a_byte(in);
    }
    struct codes codes = {at, len};
    return codes;
}

static struct codes some_kinds(struct bytes *in)
{
    static const uint8_t good[] = {0, 1};
    /* All coherent, all differential, or mixed. */
    uint8_t byte = a_byte(in);
    size_t len = a_length(in, SILLURWY_SEGMENTS);
    if (byte < 16) {
        return a_list(in, "kinds", len, good, 1);
    }
    return byte < 32 ? a_list(in, "kinds", len, good + 1, 1) : a_list(in, "kinds", len, good, 2);
}

static struct codes some_modes(struct bytes *in)
{
    static const uint8_t good[] = {1, 2, 3};
    return a_list(in, "modes", a_byte(in) % 5, good, 1 + a_byte(in) % 3);
}

static struct codes some_guards(struct bytes *in)
{
    static const uint8_t good[] = {32, 16, 8, 4};
    return a_list(in, "guards", a_byte(in) % 6, good, 1 + a_byte(in) % 4);
}

/* The bits of floats to be read, of one of several sorts. */
static uint32_t *some_float_bits(struct bytes *in, const char *name, size_t len)
{
    static const uint32_t special[] = {0x00000000, 0x80000000, 0x3f800000, 0xbf800000, 0x00000001,
                                       0x007fffff, 0x00800000, 0x7f7fffff, 0xff7fffff, 0x7f800000,
                                       0xff800000, 0x7fc00000, 0x7f800001, 0x5f800000, 0x1f800000,
                                       0x3f000000};
    uint32_t *at = lent(name, len, 4, TO_READ, a_byte(in) % 2 == 0);
    uint8_t sort = a_byte(in) % 6;
    uint64_t state = a_number(in, 8) | 1;
    for (size_t i = 0; i < len; i++) {
        state ^= state << 13;
        state ^= state >> 7;
        state ^= state << 17;
        uint32_t any = (uint32_t)(state >> 32);
        float whole = (float)((int32_t)any >> (sort == 2 ? 16 : 29));
        switch (sort) {
        case 0: at[i] = any; break;
        case 1: at[i] = special[any % 16]; break;
        case 2:
        case 3: memcpy(&at[i], &whole, 4); break;
        case 4: at[i] = in->at < in->size ? (uint32_t)a_number(in, 4) : 0x3f800000; break;
        default: at[i] = (any & 0x03ffffff) | 0x3e000000 | (any & 0x80000000); break;
        }
    }
    return at;
}

static const float *some_floats(struct bytes *in, const char *name, size_t len)
{
    return (const float *)some_float_bits(in, name, len);
}

/* How many floats: mostly a few whole spectra of `pairs` pairs, seldom 1,024 of them or more. */
static size_t some_spectra(struct bytes *in, size_t pairs)
{
    uint8_t byte = a_byte(in);
    size_t spectra = byte < 200 ? 1 + byte % 4U : byte < 224 ? 0 : byte < 254 ? byte - 224U : 1023;
    if (spectra == 1023) {
        spectra = a_byte(in) < 64 ? 1023U + a_byte(in) % 4U : 5;
    }
    size_t odd = a_byte(in);
    size_t right = 2 * pairs * spectra;
    return odd < 240 ? right : odd < 248 ? right + 1 : right > 0 ? right - 1 : 3;
}

/* ---- The refusals that the header says ---- */

static bool bad_mode(uint8_t mode)
{
    return mode < 1 || mode > 3;
}

static bool bad_codes(struct codes codes, bool (*bad)(uint8_t))
{
    for (size_t i = 0; i < codes.len; i++) {
        if (bad(codes.at[i])) {
            return true;
        }
    }
    return false;
}

static bool bad_kind(uint8_t kind)
{
    return kind > 1;
}

static bool bad_guard(uint8_t guard)
{
    return guard != 4 && guard != 8 && guard != 16 && guard != 32;
}

static bool bad_kinds(struct codes kinds)
{
    return kinds.len != SILLURWY_SEGMENTS || bad_codes(kinds, bad_kind);
}

/* Not whole spectra of `pairs` pairs, or too many. */
static bool bad_spectra(size_t len, size_t pairs)
{
    return len % (2 * pairs) != 0 || len / (2 * pairs) > SILLURWY_MOST_SPECTRA;
}

/* Holds a call to what it owes: the number, and everything lent. True if it was accepted. */
static bool accepted(uint8_t code, uint8_t owed)
{
    if (mistake == WRONG_CODE) {
        code ^= 1;
    } else if (mistake != NO_MISTAKE) {
        lent_mistake(mistake, mistaken, code != 0);
    }
    if (code != owed) {
        problem("the refusal is not the one that is owed:", "code", code);
    }
    lent_check(code != 0);
    refusals += code != 0;
    return code == 0;
}

/* The range of an accepted answer, or what it must be. The script takes the buffer's name from each
 * call, a line by itself, and makes a mistake in that buffer, here as below. */
static void must(bool holds, const char *name)
{
    if (!holds) {
        problem("an answer is out of its range:", name, 0);
    }
}

/* A part of a buffer that an accepted call leaves as it was. */
static void must_keep(const void *from, size_t bytes, const char *name)
{
    if (!lent_kept(from, bytes)) {
        problem("what is to be left was written:", name, 0);
    }
}

/* The same float, bit for bit; all NaNs are alike. */
static bool same_f32(float given, float owed)
{
    return (isnan(given) && isnan(owed)) || memcmp(&given, &owed, sizeof given) == 0;
}

static bool all_below_u32(const uint32_t *list, size_t len, size_t bound)
{
    for (size_t i = 0; i < len; i++) {
        if (list[i] >= bound) {
            return false;
        }
    }
    return true;
}

static bool all_below_u8(const uint8_t *list, size_t len, uint8_t bound)
{
    for (size_t i = 0; i < len; i++) {
        if (list[i] >= bound) {
            return false;
        }
    }
    return true;
}

/* ---- Layout ---- */

static void carrier_bin(struct bytes *in)
{
    uint8_t mode = a_mode(in);
    size_t k = a_bounded(in, SILLURWY_TOTAL_CARRIERS(mode));
    size_t *bin = a_buffer(in, "bin", 1, sizeof *bin);
    lent_ready();
    uint8_t code = sillurwy_carrier_bin(mode, k, bin);
    if (accepted(code, bad_mode(mode) ? 1 : k >= SILLURWY_TOTAL_CARRIERS(mode) ? 4 : 0)) {
        must(*bin < SILLURWY_FFT_SIZE(mode), "bin");
    }
}

static void role_map(struct bytes *in)
{
    uint8_t mode = a_mode(in);
    uint8_t phase = a_phase(in);
    struct codes kinds = some_kinds(in);
    size_t right = SILLURWY_TOTAL_CARRIERS(mode);
    size_t len = a_length(in, right);
    uint8_t *out = a_buffer(in, "out", len, 1);
    lent_ready();
    uint8_t code = sillurwy_role_map(mode, phase, kinds.at, kinds.len, out, len);
    uint8_t owed = bad_mode(mode) ? 1 : bad_kinds(kinds) ? 2 : phase > 3 ? 3 : len != right ? 7 : 0;
    if (accepted(code, owed)) {
        must(all_below_u8(out, len, 7), "out");
    }
}

/* Byte k of the role map; no role where the map is refused. */
static uint8_t role_in_map(uint8_t mode, uint8_t phase, struct codes kinds, size_t k)
{
    static uint8_t map[SILLURWY_TOTAL_CARRIERS(3)];
    map[k] = UINT8_MAX;
    sillurwy_role_map(mode, phase, kinds.at, kinds.len, map, SILLURWY_TOTAL_CARRIERS(mode));
    return map[k];
}

static void carrier_role(struct bytes *in)
{
    uint8_t mode = a_mode(in);
    size_t k_total = bad_mode(mode) ? 1405 : SILLURWY_TOTAL_CARRIERS(mode);
    uint8_t phase = a_phase(in);
    struct codes kinds = some_kinds(in);
    size_t k = a_bounded(in, k_total - 1);
    uint8_t *role = a_buffer(in, "role", 1, 1);
    lent_ready();
    uint8_t code = sillurwy_carrier_role(mode, phase, kinds.at, kinds.len, k, role);
    uint8_t owed = bad_mode(mode) ? 1 : bad_kinds(kinds) ? 2 : phase > 3 ? 3 : k >= k_total ? 4 : 0;
    if (accepted(code, owed)) {
        /* The edge is the band's last carrier, and no other. */
        bool in_range = *role < 7 && (*role == SILLURWY_EDGE) == (k == k_total - 1);
        must(in_range && *role == role_in_map(mode, phase, kinds, k), "role");
    }
}

static void sign_map(struct bytes *in)
{
    uint8_t mode = a_mode(in);
    size_t right = SILLURWY_TOTAL_CARRIERS(mode);
    size_t len = a_length(in, right);
    uint8_t *out = a_buffer(in, "out", len, 1);
    lent_ready();
    uint8_t code = sillurwy_sign_map(mode, out, len);
    if (accepted(code, bad_mode(mode) ? 1 : len != right ? 7 : 0)) {
        must(all_below_u8(out, len, 2), "out");
    }
}

static void data_list(struct bytes *in)
{
    uint8_t mode = a_mode(in);
    uint8_t phase = a_phase(in);
    struct codes kinds = some_kinds(in);
    size_t right = SILLURWY_DATA_LIST_LENGTH(mode);
    size_t len = a_length(in, right);
    uint32_t *out = a_buffer(in, "out", len, sizeof *out);
    lent_ready();
    uint8_t code = sillurwy_data_list(mode, phase, kinds.at, kinds.len, out, len);
    uint8_t owed = bad_mode(mode) ? 1 : bad_kinds(kinds) ? 2 : phase > 3 ? 3 : len != right ? 7 : 0;
    if (accepted(code, owed)) {
        must(all_below_u32(out, len, SILLURWY_TOTAL_CARRIERS(mode) - 1), "out");
    }
}

static void continual_list(struct bytes *in)
{
    uint8_t mode = a_mode(in);
    struct codes kinds = some_kinds(in);
    /* The count: the carriers of each segment that are no data, without its scattered pilots. */
    size_t right = 1;
    for (size_t i = 0; i < kinds.len; i++) {
        right += (kinds.at[i] == 1 ? 4 : 1) * SILLURWY_BY_MODE(mode, 3UL, 6UL, 12UL);
    }
    size_t len = a_length(in, a_byte(in) < 128 ? right : SILLURWY_CONTINUAL_LIST_MOST(mode));
    uint32_t *out = a_buffer(in, "out", len, sizeof *out);
    size_t *count = a_buffer(in, "count", 1, sizeof *count);
    lent_ready();
    uint8_t code = sillurwy_continual_list(mode, kinds.at, kinds.len, out, len, count);
    if (accepted(code, bad_mode(mode) ? 1 : bad_kinds(kinds) ? 2 : len < right ? 7 : 0)) {
        must(*count == right, "count");
        must(all_below_u32(out, right, SILLURWY_TOTAL_CARRIERS(mode)), "out");
        must_keep(out + right, 4 * (len - right), "out");
    }
}

/* ---- Acquisition ---- */

static void samples_needed(struct bytes *in)
{
    struct codes modes = some_modes(in);
    struct codes guards = some_guards(in);
    size_t symbols = a_bounded(in, SILLURWY_MOST_SYMBOLS);
    size_t *samples = a_buffer(in, "samples", 1, sizeof *samples);
    lent_ready();
    uint8_t code = sillurwy_samples_needed(modes.at, modes.len, guards.at, guards.len, symbols,
                                           samples);
    uint8_t owed = bad_codes(modes, bad_mode)     ? 1
                   : bad_codes(guards, bad_guard) ? 9
                   : symbols > 64                 ? 10
                                                  : 0;
    if (accepted(code, owed)) {
        must(*samples <= 2 * SILLURWY_MOST_SAMPLES, "samples");
    }
}

/* How many floats: around where the search begins in each mode, seldom around the most. */
static size_t some_samples(struct bytes *in)
{
    uint8_t byte = a_byte(in);
    size_t pairs;
    if (byte < 96) {
        pairs = below(in, 2200);
    } else if (byte < 240) {
        pairs = 10500 + below(in, 400);
    } else if (byte < 254) {
        pairs = below(in, 60000);
    } else {
        pairs = a_byte(in) < 32 ? SILLURWY_MOST_SAMPLES - 1 + a_byte(in) % 3U : 100;
    }
    return 2 * pairs + (a_byte(in) >= 248);
}

static void detect_mode(struct bytes *in)
{
    size_t len = some_samples(in);
    const float *samples = some_floats(in, "samples", len);
    struct codes modes = some_modes(in);
    struct codes guards = some_guards(in);
    size_t right = SILLURWY_SCRATCH_LENGTH(len / 2);
    size_t scratch_len = a_length(in, right);
    double *scratch = a_float_buffer(in, "scratch", scratch_len, sizeof *scratch);
    uint8_t *found = a_buffer(in, "found", 1, 1);
    uint8_t *mode = a_buffer(in, "mode", 1, 1);
    uint8_t *guard = a_buffer(in, "guard", 1, 1);
    size_t *offset = a_buffer(in, "offset", 1, sizeof *offset);
    double *metric = a_float_buffer(in, "metric", 1, sizeof *metric);
    double *re = a_float_buffer(in, "re", 1, sizeof *re);
    double *im = a_float_buffer(in, "im", 1, sizeof *im);
    lent_ready();
    uint8_t code =
        sillurwy_detect_mode(samples, len, modes.at, modes.len, guards.at, guards.len, scratch,
                             scratch_len, found, mode, guard, offset, metric, re, im);
    uint8_t owed = bad_codes(modes, bad_mode)                                ? 1
                   : bad_codes(guards, bad_guard)                            ? 9
                   : len % 2 != 0 || len / 2 > SILLURWY_MOST_SAMPLES         ? 5
                   : scratch_len < right                                     ? 7
                                                                             : 0;
    if (!accepted(code, owed)) {
        return;
    }
    uint64_t left = 0;
    for (size_t i = 0; i < scratch_len; i++) {
        uint64_t bits;
        memcpy(&bits, &scratch[i], sizeof bits);
        left |= bits;
    }
    must(left == 0, "scratch");
    must(*found <= 1, "found");
    if (*found == 1) {
        must(memchr(modes.at, *mode, modes.len) != NULL, "mode");
        must(memchr(guards.at, *guard, guards.len) != NULL, "guard");
        must(*offset < len / 2, "offset");
    } else {
        must_keep(mode, sizeof *mode, "mode");
        must_keep(guard, sizeof *guard, "guard");
        must_keep(offset, sizeof *offset, "offset");
        must_keep(metric, sizeof *metric, "metric");
        must_keep(re, sizeof *re, "re");
        must_keep(im, sizeof *im, "im");
    }
}

/* The norm of a pair: squares, sum and root in double. */
static float norm_of(float re, float im)
{
    return (float)sqrt((double)re * (double)re + (double)im * (double)im);
}

/* The ratio of a bin that has `count` pairs, each `step` pairs behind the last: products and sums
 * in float, each rounded by itself, in the order of the symbols. */
static float ratio_of(const float *bin, size_t count, size_t step)
{
    float squares_re = 0, squares_im = 0, energy = 0;
    for (size_t i = 1; i < count; i++) {
        const float *x = bin + 2 * step * i, *y = x - 2 * step;
        float re = x[0] * y[0] + x[1] * y[1];
        float im = x[1] * y[0] - x[0] * y[1];
        squares_re += re * re - im * im;
        squares_im += re * im + im * re;
        energy += re * re + im * im;
    }
    return energy > 0 ? norm_of(squares_re, squares_im) / energy : 0;
}

/* True if each of `bins` ratios is that of its bin, in `count` spectra of `bins` pairs. */
static bool all_ratios(const float *ratios, size_t bins, const float *spectra, size_t count)
{
    for (size_t i = 0; i < bins; i++) {
        if (!same_f32(ratios[i], ratio_of(spectra + 2 * i, count, bins))) {
            return false;
        }
    }
    return true;
}

/* How many floats a bin has: mostly of up to 40 pairs, else of up to the most or next to it, and
 * seldom one float more. */
static size_t some_pairs(struct bytes *in)
{
    uint8_t byte = a_byte(in);
    size_t pairs = byte < 208   ? byte % 41U
                   : byte < 240 ? below(in, SILLURWY_MOST_SPECTRA)
                                : SILLURWY_MOST_SPECTRA - 2 + byte % 5U;
    return 2 * pairs + (a_byte(in) >= 240);
}

static void bin_ratio(struct bytes *in)
{
    size_t len = some_pairs(in);
    const float *pairs = some_floats(in, "pairs", len);
    float *ratio = a_float_buffer(in, "ratio", 1, sizeof *ratio);
    lent_ready();
    uint8_t code = sillurwy_bin_ratio(pairs, len, ratio);
    /* A bin by itself is spectra of one pair. */
    if (accepted(code, bad_spectra(len, 1) ? 5 : len == 0 ? 6 : 0)) {
        must(same_f32(*ratio, ratio_of(pairs, len / 2, 1)), "ratio");
    }
}

static void integer_cfo(struct bytes *in)
{
    uint8_t mode = a_mode(in);
    size_t n = bad_mode(mode) ? 2048 : SILLURWY_FFT_SIZE(mode);
    size_t len = some_spectra(in, n);
    const float *spectra = some_floats(in, "spectra", len);
    size_t bound = a_byte(in) < 128 ? below(in, 40) : a_bounded(in, n / 2);
    size_t ratios_len = a_length(in, n);
    float *ratios = a_float_buffer(in, "ratios", ratios_len, sizeof *ratios);
    int64_t *shift = a_buffer(in, "shift", 1, sizeof *shift);
    float *score = a_float_buffer(in, "score", 1, sizeof *score);
    lent_ready();
    uint8_t code =
        sillurwy_integer_cfo(mode, spectra, len, bound, ratios, ratios_len, shift, score);
    uint8_t owed = bad_mode(mode)         ? 1
                   : bad_spectra(len, n)  ? 5
                   : len == 0             ? 6
                   : ratios_len != n      ? 7
                   : bound > n / 2        ? 8
                                          : 0;
    if (accepted(code, owed)) {
        must(all_ratios(ratios, n, spectra, len / (2 * n)), "ratios");
        must(*shift >= -(int64_t)bound && *shift <= (int64_t)bound, "shift");
    }
}

static void detect_kinds(struct bytes *in)
{
    uint8_t mode = a_mode(in);
    size_t k_total = bad_mode(mode) ? 1405 : SILLURWY_TOTAL_CARRIERS(mode);
    size_t len = some_spectra(in, k_total);
    const float *spectra = some_floats(in, "spectra", len);
    size_t ratios_len = a_length(in, k_total);
    float *ratios = a_float_buffer(in, "ratios", ratios_len, sizeof *ratios);
    uint8_t *kinds = a_buffer(in, "kinds", SILLURWY_SEGMENTS, 1);
    float *scores = a_float_buffer(in, "scores", SILLURWY_SEGMENTS, sizeof *scores);
    lent_ready();
    uint8_t code = sillurwy_detect_kinds(mode, spectra, len, ratios, ratios_len, kinds, scores);
    uint8_t owed = bad_mode(mode)              ? 1
                   : bad_spectra(len, k_total) ? 5
                   : len == 0                  ? 6
                   : ratios_len != k_total     ? 7
                                               : 0;
    if (accepted(code, owed)) {
        must(all_ratios(ratios, k_total, spectra, len / (2 * k_total)), "ratios");
        must(all_below_u8(kinds, SILLURWY_SEGMENTS, 2), "kinds");
    }
}

static void tmcc_soft(struct bytes *in)
{
    uint8_t mode = a_mode(in);
    size_t k_total = bad_mode(mode) ? 1405 : SILLURWY_TOTAL_CARRIERS(mode);
    struct codes kinds = some_kinds(in);
    size_t len = a_length(in, 4 * k_total);
    const float *spectra = some_floats(in, "spectra", len);
    uint8_t filter = a_filter(in);
    float *value = a_float_buffer(in, "value", 1, sizeof *value);
    lent_ready();
    uint8_t code = sillurwy_tmcc_soft(mode, kinds.at, kinds.len, spectra, len, filter, value);
    uint8_t owed = bad_mode(mode)          ? 1
                   : bad_kinds(kinds)      ? 2
                   : len != 4 * k_total    ? 5
                   : filter > 2            ? 3
                                           : 0;
    accepted(code, owed);
}

/* Floats of spectra of `pairs` pairs, some of them all zeros, of either sign. */
static const float *partly_zero(struct bytes *in, const char *name, size_t len, size_t pairs)
{
    uint32_t *at = some_float_bits(in, name, len);
    uint8_t zero = a_byte(in) < 128 ? a_byte(in) : 0;
    for (size_t i = 0; i < len; i++) {
        if (zero >> (i / (2 * pairs) % 8) & 1) {
            at[i] &= 0x80000000;
        }
    }
    return (const float *)at;
}

/* How many spectra have a float that is not zero: no other is heard. */
static size_t not_zero(const float *spectra, size_t len, size_t pairs)
{
    size_t count = 0;
    for (size_t from = 0; from < len; from += 2 * pairs) {
        size_t i = 0;
        while (i < 2 * pairs && spectra[from + i] == 0) {
            i++;
        }
        count += i < 2 * pairs;
    }
    return count;
}

static void detect_sp_phase(struct bytes *in)
{
    uint8_t mode = a_mode(in);
    size_t k_total = bad_mode(mode) ? 1405 : SILLURWY_TOTAL_CARRIERS(mode);
    struct codes kinds = some_kinds(in);
    size_t len = some_spectra(in, k_total);
    const float *spectra = partly_zero(in, "spectra", len, k_total);
    uint8_t *found = a_buffer(in, "found", 1, 1);
    uint8_t *phase = a_buffer(in, "phase", 1, 1);
    float *share = a_float_buffer(in, "share", 1, sizeof *share);
    uint32_t *counts = a_buffer(in, "counts", SILLURWY_PHASES, sizeof *counts);
    uint32_t *lead = a_buffer(in, "lead", 1, sizeof *lead);
    lent_ready();
    uint8_t code = sillurwy_detect_sp_phase(mode, kinds.at, kinds.len, spectra, len, found, phase,
                                            share, counts, lead);
    uint8_t owed = bad_mode(mode)              ? 1
                   : bad_kinds(kinds)          ? 2
                   : bad_spectra(len, k_total) ? 5
                                               : 0;
    if (!accepted(code, owed)) {
        return;
    }
    size_t votes = (size_t)counts[0] + counts[1] + counts[2] + counts[3];
    bool coherent = memchr(kinds.at, SILLURWY_COHERENT, kinds.len) != NULL;
    must(*found == (coherent ? 1 : 0), "found");
    must(votes == (coherent ? len / (2 * k_total) : 0), "counts");
    must(*lead <= (coherent ? not_zero(spectra, len, k_total) : 0), "lead");
    if (coherent) {
        must(*phase < 4, "phase");
        must(*share >= 0 && *share <= 1, "share");
    } else {
        must_keep(phase, sizeof *phase, "phase");
        must_keep(share, sizeof *share, "share");
    }
}

/* The synchronising words by their codes, bit B1 first. */
enum { WORD_BITS = 16, WORDS = 2 };
static const char *const sync_words[WORDS] = {"0011010111101110", "1100101000010001"};

/* True if a soft value reads as bit 1. */
static bool is_one(uint32_t bits)
{
    float value;
    memcpy(&value, &bits, sizeof value);
    return value < 0;
}

static bool spells(const uint32_t *soft, const char *word)
{
    for (size_t i = 0; i < WORD_BITS; i++) {
        if (is_one(soft[i]) != (word[i] == '1')) {
            return false;
        }
    }
    return true;
}

/* The code of the word that sixteen soft values spell, or WORDS. */
static uint8_t word_spelt(const uint32_t *soft)
{
    uint8_t word = 0;
    while (word < WORDS && !spells(soft, sync_words[word])) {
        word++;
    }
    return word;
}

/* True if a word is spelt anywhere in a list of soft values. */
static bool has_word(const uint32_t *soft, size_t len)
{
    for (size_t i = 0; i + WORD_BITS <= len; i++) {
        if (word_spelt(soft + i) < WORDS) {
            return true;
        }
    }
    return false;
}

/* Spells a word in a list of soft values: first in it, last or anywhere, also cut off where the list
 * begins or ends. One word of four has a wrong bit. */
static void spell_word(struct bytes *in, uint32_t *soft, size_t len)
{
    /* Values that read as 1, and as 0: among these are both zeros, and NaNs of both signs. */
    static const uint32_t ones[] = {0xbf800000, 0x80000001, 0xff7fffff, 0xff800000};
    static const uint32_t zeros[] = {0x3f800000, 0x00000001, 0x7f800000, 0x00000000,
                                     0x80000000, 0x7fc00000, 0xffc00000, 0xff800001};
    const char *word = sync_words[a_byte(in) % WORDS];
    uint8_t place = a_byte(in) % 4;
    /* The index behind the word. */
    size_t end = place == 0 ? WORD_BITS : place == 1 ? len : 1 + below(in, len + WORD_BITS - 1);
    uint8_t wrong = a_byte(in) % 64;
    for (size_t i = 0; i < WORD_BITS; i++) {
        uint8_t byte = a_byte(in);
        bool one = (word[i] == '1') != (i == wrong);
        if (end + i >= WORD_BITS && end + i - WORD_BITS < len) {
            soft[end + i - WORD_BITS] = one ? ones[byte % 4] : zeros[byte % 8];
        }
    }
}

/* How many soft values: mostly up to 60, else up to some hundreds. */
static size_t some_values(struct bytes *in)
{
    uint8_t byte = a_byte(in);
    return byte < 232 ? byte % 61 : below(in, 700);
}

static void frame_start(struct bytes *in)
{
    size_t len = some_values(in);
    uint32_t *soft = some_float_bits(in, "soft", len);
    /* No word, one or two: the later one may lie across the earlier. */
    for (size_t i = a_byte(in) % 3; i > 0; i--) {
        spell_word(in, soft, len);
    }
    uint8_t *found = a_buffer(in, "found", 1, 1);
    size_t *start = a_buffer(in, "start", 1, sizeof *start);
    uint8_t *word = a_buffer(in, "word", 1, 1);
    lent_ready();
    accepted(sillurwy_frame_start((const float *)soft, len, found, start, word), 0);
    must(*found == (has_word(soft, len) ? 1 : 0), "found");
    if (*found == 1) {
        must(*start <= len - WORD_BITS && word_spelt(soft + *start) < WORDS, "start");
        must(*word == word_spelt(soft + *start), "word");
    } else {
        must_keep(start, sizeof *start, "start");
        must_keep(word, sizeof *word, "word");
    }
}

/* True for the points of a coherent segment and for the one that closes it. */
static bool is_estimated(uint8_t mode, const uint8_t *kinds, size_t point)
{
    static const uint8_t segments[] = {11, 9, 7, 5, 3, 1, 0, 2, 4, 6, 8, 10, 12};
    size_t points = SILLURWY_CARRIERS_PER_SEGMENT(mode) / 3;
    size_t place = point / points;
    bool within = place < SILLURWY_SEGMENTS && kinds[segments[place]] == SILLURWY_COHERENT;
    bool closes = place > 0 && point % points == 0 && kinds[segments[place - 1]] == SILLURWY_COHERENT;
    return within || closes;
}

static void estimate_grid(struct bytes *in)
{
    uint8_t mode = a_mode(in);
    size_t k_total = bad_mode(mode) ? 1405 : SILLURWY_TOTAL_CARRIERS(mode);
    uint8_t phase = a_phase(in);
    struct codes kinds = some_kinds(in);
    size_t len = some_spectra(in, k_total);
    const float *spectra = some_floats(in, "spectra", len);
    size_t count = len / (2 * k_total);
    size_t index = count == 0 ? a_byte(in) : a_bounded(in, count - 1);
    size_t w = a_byte(in) < 128 ? a_byte(in) % 8 : a_bounded(in, SILLURWY_MOST_WINDOW);
    size_t grid_len = a_length(in, SILLURWY_GRID_LENGTH(mode));
    float *grid = a_float_buffer(in, "grid", grid_len, sizeof *grid);
    lent_ready();
    uint8_t code = sillurwy_estimate_grid(mode, phase, kinds.at, kinds.len, spectra, len, index, w,
                                          grid, grid_len);
    uint8_t owed = bad_mode(mode)                             ? 1
                   : bad_kinds(kinds)                         ? 2
                   : phase > 3                                ? 3
                   : bad_spectra(len, k_total)                ? 5
                   : len == 0                                 ? 6
                   : index >= count                           ? 4
                   : w > SILLURWY_MOST_WINDOW                 ? 10
                   : grid_len != SILLURWY_GRID_LENGTH(mode)   ? 7
                                                              : 0;
    if (!accepted(code, owed)) {
        return;
    }
    for (size_t i = 0; i < grid_len; i += 2) {
        if (is_estimated(mode, kinds.at, i / 2)) {
            continue;
        }
        must_keep(grid + i, 2 * sizeof *grid, "grid");
    }
}

/* ---- Floats: they are compared with the compiler's own root and conversion. ---- */

static void must_be_f64(double given, double owed)
{
    if (mistake == WRONG_CODE) {
        given += 1;
    }
    if (!(isnan(given) && isnan(owed)) && memcmp(&given, &owed, sizeof given) != 0) {
        problem("the value is not the one that is owed:", "f64", 0);
    }
}

static void must_be_f32(float given, float owed)
{
    if (mistake == WRONG_CODE) {
        given += 1;
    }
    if (!same_f32(given, owed)) {
        problem("the value is not the one that is owed:", "f32", 0);
    }
}

static void root(struct bytes *in)
{
    double x = a_double(in);
    must_be_f64(sillurwy_root(x), sqrt(x));
}

static void narrow(struct bytes *in)
{
    /* As often in the range of float as anywhere. */
    double x = a_byte(in) % 2 == 0 ? a_double(in) : (double)a_float(in) * (1 + a_byte(in) / 256.0);
    must_be_f32(sillurwy_narrow(x), (float)x);
}

static void norm32(struct bytes *in)
{
    float re = a_float(in);
    float im = a_float(in);
    must_be_f32(sillurwy_norm32(re, im), norm_of(re, im));
}

static void norm64(struct bytes *in)
{
    double re = a_double(in);
    double im = a_double(in);
    must_be_f64(sillurwy_norm64(re, im), sqrt(re * re + im * im));
}

/* ---- Angles: they are held to their laws, and to the C library's atan2. ---- */

struct pair {
    double re, im;
};

/* One part of a pair: zeros, ones, the least and the greatest, infinities and NaNs. */
static double a_special(struct bytes *in)
{
    static const uint64_t special[] = {
        0x0000000000000000, 0x8000000000000000, 0x3ff0000000000000, 0xbff0000000000000,
        0x0000000000000001, 0x8000000000000001, 0x000fffffffffffff, 0x0010000000000000,
        0x7fefffffffffffff, 0xffefffffffffffff, 0x7fe0000000000000, 0x3fefffffffffffff,
        0x7ff0000000000000, 0xfff0000000000000, 0x7ff8000000000000, 0xfff0000000000001};
    return double_of(special[a_byte(in) % 16]);
}

/* A pair of one of several sorts: any bits, which mostly lie next to an axis; parts whose sizes are
 * up to 2^32 apart; whole numbers; special ones, or one of them beside any bits. */
static struct pair a_pair(struct bytes *in)
{
    uint8_t sort = a_byte(in) % 8;
    struct pair p = {0, 0};
    p.re = sort == 0 ? a_special(in) : a_double(in);
    p.im = sort <= 1 ? a_special(in) : a_double(in);
    if (sort >= 3 && sort <= 5) {
        int of_re = 0, of_im = 0;
        frexp(p.re, &of_re);
        p.im = ldexp(frexp(p.im, &of_im), of_re + a_byte(in) % 65 - 32);
    } else if (sort >= 6) {
        /* A byte, or 48 bits as in the sums of a capture; of a byte some pairs are diagonals. */
        unsigned bits = sort == 6 ? 56 : 16;
        p.re = (double)((int64_t)a_number(in, 8) >> bits);
        p.im = (double)((int64_t)a_number(in, 8) >> bits);
    }
    return p;
}

/* An angle as the library gives it; a mistake puts it out by one. */
static int32_t angle_of(double re, double im)
{
    return sillurwy_angle(re, im) + (mistake == WRONG_CODE);
}

static void must_hold(bool holds, const char *law, int32_t given)
{
    if (!holds) {
        problem("the angle is not the one that is owed:", law, given);
    }
}

/* How far an angle is from the true one round the circle, in 1/65536 of a turn. */
static double from_true(int32_t given, struct pair p)
{
    const double half_turn = 3.14159265358979323846;
    double apart = fabs(given - atan2(p.im, p.re) / half_turn * 32768);
    return apart > 32768 ? 65536 - apart : apart;
}

/* True if the angle is the same after both parts were multiplied by a power of two, where they can
 * be without being rounded. */
static bool keeps_under_gain(int32_t given, struct pair p, int power)
{
    double re = ldexp(p.re, power), im = ldexp(p.im, power);
    bool exact = ldexp(re, -power) == p.re && ldexp(im, -power) == p.im;
    return !exact || angle_of(re, im) == given;
}

static void angle(struct bytes *in)
{
    struct pair p = a_pair(in);
    int power = (int)below(in, 129) - 64;
    int32_t given = angle_of(p.re, p.im);
    if (!isfinite(p.re) || !isfinite(p.im) || (p.re == 0 && p.im == 0)) {
        must_hold(given == 0, "a pair that has no angle", given);
        return;
    }
    must_hold(given > -32768 && given <= 32768, "range", given);
    must_hold(from_true(given, p) <= 1, "one unit from atan2", given);
    int32_t turned = given + 16384;
    turned -= turned > 32768 ? 65536 : 0;
    must_hold(angle_of(-p.im, p.re) == turned, "quarter turn", given);
    must_hold(angle_of(p.re, -p.im) == (given == 32768 ? given : -given), "mirrored", given);
    must_hold(keeps_under_gain(given, p, power), "gain", given);
    /* A sum with +0.0 leaves every number but -0.0. */
    must_hold(angle_of(p.re + 0.0, p.im + 0.0) == given, "signs of zeros", given);
}

static void cfo_frac(struct bytes *in)
{
    struct pair p = a_pair(in);
    int32_t turn = sillurwy_angle(p.re, p.im);
    must_be_f64(sillurwy_cfo_frac(p.re, p.im), turn == 0 ? 0.0 : -(double)turn / 65536);
}

/* ---- The targets ---- */

struct target {
    const char *name;
    void (*run)(struct bytes *in);
    /* How many cases it runs, in thousands, unless that is said: fewer where a case takes longer. */
    unsigned long thousands;
};

static const struct target targets[] = {
    {"carrier_bin", carrier_bin, 50},
    {"role_map", role_map, 20},
    {"carrier_role", carrier_role, 50},
    {"sign_map", sign_map, 20},
    {"data_list", data_list, 10},
    {"continual_list", continual_list, 20},
    {"samples_needed", samples_needed, 50},
    {"detect_mode", detect_mode, 3},
    {"bin_ratio", bin_ratio, 50},
    {"integer_cfo", integer_cfo, 2},
    {"detect_kinds", detect_kinds, 2},
    {"tmcc_soft", tmcc_soft, 5},
    {"detect_sp_phase", detect_sp_phase, 2},
    {"frame_start", frame_start, 50},
    {"estimate_grid", estimate_grid, 2},
    {"root", root, 200},
    {"narrow", narrow, 200},
    {"norm32", norm32, 200},
    {"norm64", norm64, 200},
    {"angle", angle, 200},
    {"cfo_frac", cfo_frac, 200},
};

#define TARGETS (sizeof targets / sizeof targets[0])

static void run_target(const struct target *target, const uint8_t *data, size_t size)
{
    struct bytes in = {data, size, 0};
    running = target->name;
    lent_start();
    target->run(&in);
}

/* The target of a name, or the number of targets. */
static size_t target_named(const char *name)
{
    size_t i = 0;
    while (i < TARGETS && strcmp(targets[i].name, name) != 0) {
        i++;
    }
    return i;
}

#ifdef LIBFUZZER

int LLVMFuzzerTestOneInput(const uint8_t *data, size_t size);

int LLVMFuzzerTestOneInput(const uint8_t *data, size_t size)
{
    const char *only = getenv("SILLURWY_FUZZ_ONLY");
    size_t which = only != NULL ? target_named(only) : size > 0 ? data[0] % TARGETS : 0;
    if (which == TARGETS) {
        fprintf(stderr, "fuzz: no target %s\n", only);
        exit(2);
    }
    size_t skip = only == NULL && size > 0;
    run_target(&targets[which], data + skip, size - skip);
    return 0;
}

#else

/* SplitMix64. */
static uint64_t next(uint64_t *state)
{
    *state += 0x9e3779b97f4a7c15U;
    uint64_t z = (*state ^ *state >> 30) * 0xbf58476d1ce4e5b9U;
    z = (z ^ z >> 27) * 0x94d049bb133111ebU;
    return z ^ z >> 31;
}

static void run_case(size_t which, unsigned long long seed, unsigned long number)
{
    uint8_t data[320];
    uint64_t state = seed;
    state = next(&state) ^ which;
    state = next(&state) + number;
    /* Seldom a short one, which ends in zeros. */
    size_t size = next(&state) % 8 == 0 ? (size_t)(next(&state) % sizeof data) : sizeof data;
    for (size_t i = 0; i < sizeof data; i += 8) {
        uint64_t bits = next(&state);
        memcpy(data + i, &bits, 8);
    }
    running_case = number;
    run_target(&targets[which], data, size);
}

static void on_fault(int number)
{
    (void)number;
    fprintf(stderr, "fuzz: %s: memory outside of what was lent was touched\n", running);
    tell_case();
    _exit(1);
}

static unsigned long long number_of(const char *word, const char *text)
{
    char *end = NULL;
    unsigned long long value = text == NULL ? 0 : strtoull(text, &end, 10);
    if (text == NULL || *text == '\0' || *end != '\0') {
        fprintf(stderr, "fuzz: %s needs a number\n", word);
        exit(2);
    }
    return value;
}

int main(int words, char **word)
{
    unsigned long long seed = 1;
    unsigned long cases = 0;
    unsigned long from = 0;
    size_t only = TARGETS;
    for (int i = 1; i < words; i += 2) {
        const char *value = word[i + 1];
        if (strcmp(word[i], "--seed") == 0) {
            seed = number_of(word[i], value);
        } else if (strcmp(word[i], "--cases") == 0) {
            cases = (unsigned long)number_of(word[i], value);
        } else if (strcmp(word[i], "--from") == 0) {
            from = (unsigned long)number_of(word[i], value);
        } else if (strcmp(word[i], "--mistake") == 0) {
            mistake = (enum mistake)(number_of(word[i], value) % MISTAKES);
        } else if (strcmp(word[i], "--in") == 0 && value != NULL) {
            mistaken = value;
        } else if (strcmp(word[i], "--only") == 0 && value != NULL) {
            only = target_named(value);
            if (only == TARGETS) {
                fprintf(stderr, "fuzz: no target %s\n", value);
                return 2;
            }
        } else {
            fprintf(stderr, "usage: fuzz [--seed N] [--cases N] [--only NAME] [--from N]"
                            " [--mistake 1 to 11 [--in BUFFER]]\n");
            return 2;
        }
    }
    running_seed = seed;
    signal(SIGSEGV, on_fault);
    signal(SIGBUS, on_fault);
    printf("fuzz: seed %llu\n", seed);
    unsigned long all = 0;
    for (size_t i = 0; i < TARGETS; i++) {
        if (only != TARGETS && only != i) {
            continue;
        }
        unsigned long count = cases > 0 ? cases : 1000 * targets[i].thousands;
        refusals = 0;
        for (unsigned long number = from; number < from + count; number++) {
            run_case(i, seed, number);
        }
        printf("%-16s %8lu cases, %lu refused\n", targets[i].name, count, refusals);
        fflush(stdout);
        all += count;
    }
    printf("fuzz: %lu lent NaNs were not to be written and kept their bytes\n", lent_nans_held());
    printf("fuzz: %lu cases, no problem\n", all);
    return 0;
}

#endif
