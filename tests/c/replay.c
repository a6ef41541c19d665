/* Calls every function of sillurwy.h from C and compares the answers with the stored ones, which
 * oracle/store wrote (oracle/README.md, "The stored answers", has the form of the file).
 *
 *   replay FILE [NAME [DAMAGED]]
 *
 * It prints for each function, by its number, how many calls were compared and how many differ. The
 * exit status is 1 if any differs, if the file cannot be read to its end, or if a function was not
 * called. With a function's name, the first of its stored answers is damaged: this must be found.
 * DAMAGED is where the damaged file is written, for other programs that read it.
 *
 * A new function has a line at the end of the list below and a line in `called`. */
#include "sillurwy.h"

#include <stdbool.h>
#include <stdio.h>
#include <stdlib.h>
#include <string.h>

/* The functions by their numbers in the file, which begin at 1. */
#define EACH_FUNCTION(LINE)                  \
    LINE(CARRIER_BIN, "carrier_bin")         \
    LINE(ROLE_MAP, "role_map")               \
    LINE(SIGN_MAP, "sign_map")               \
    LINE(DATA_LIST, "data_list")             \
    LINE(CONTINUAL_LIST, "continual_list")   \
    LINE(SAMPLES_NEEDED, "samples_needed")   \
    LINE(DETECT_MODE, "detect_mode")         \
    LINE(INTEGER_CFO, "integer_cfo")         \
    LINE(DETECT_KINDS, "detect_kinds")       \
    LINE(TMCC_SOFT, "tmcc_soft")             \
    LINE(DETECT_SP_PHASE, "detect_sp_phase") \
    LINE(ESTIMATE_GRID, "estimate_grid")     \
    LINE(ROOT, "root")                       \
    LINE(NARROW, "narrow")                   \
    LINE(NORM32, "norm32")                   \
    LINE(NORM64, "norm64")                   \
    LINE(FRAME_START, "frame_start")         \
    LINE(BIN_RATIO, "bin_ratio")             \
    LINE(CARRIER_ROLE, "carrier_role")       \
    LINE(ANGLE, "angle")                     \
    LINE(CFO_FRAC, "cfo_frac")

#define NUMBER(number, name) number,
#define NAME(number, name) name,
enum function { NO_FUNCTION, EACH_FUNCTION(NUMBER) FUNCTIONS };
static const char *const names[FUNCTIONS] = {"none", EACH_FUNCTION(NAME)};

static unsigned long calls[FUNCTIONS];
static unsigned long differing[FUNCTIONS];

/* The function whose next answer is damaged, if any. */
static size_t damaged = NO_FUNCTION;

static void count(size_t function, bool good)
{
    calls[function]++;
    if (!good && differing[function]++ == 0) {
        printf("%s: call %lu differs\n", names[function], calls[function]);
    }
}

/* ---- The file ---- */

static const char *file_name;
static uint8_t *bytes;
static size_t size;
static size_t at;

static void fail(const char *what, const char *name)
{
    fprintf(stderr, "replay: %s: %s\n", what, name);
    exit(1);
}

/* Room for `entries` of `width` bytes, and for one behind them. */
static void *room(size_t entries, size_t width)
{
    void *memory = calloc(entries + 1, width);
    if (memory == NULL) {
        fail("no memory", "calloc");
    }
    return memory;
}

static void read_file(const char *name)
{
    long end = 0;
    FILE *file = fopen(name, "rb");
    file_name = name;
    if (file == NULL || fseek(file, 0, SEEK_END) != 0 || (end = ftell(file)) < 0 ||
        fseek(file, 0, SEEK_SET) != 0) {
        fail("cannot read", name);
    }
    size = (size_t)end;
    bytes = room(size, 1);
    if (fread(bytes, 1, size, file) != size) {
        fail("cannot read", name);
    }
    fclose(file);
}

static void write_file(const char *name)
{
    FILE *file = fopen(name, "wb");
    if (file == NULL || fwrite(bytes, 1, size, file) != size || fclose(file) != 0) {
        fail("cannot write", name);
    }
}

static const uint8_t *take(size_t n)
{
    const uint8_t *from = bytes + at;
    if (size - at < n) {
        fail("ends early", file_name);
    }
    at += n;
    return from;
}

/* A number of n bytes, the low one first. */
static uint64_t number(size_t n)
{
    const uint8_t *from = take(n);
    uint64_t value = 0;
    for (size_t i = n; i > 0; i--) {
        value = value << 8 | from[i - 1];
    }
    return value;
}

static size_t length(void)
{
    return (size_t)number(2);
}

static float float_of(uint32_t bits)
{
    float value;
    memcpy(&value, &bits, sizeof value);
    return value;
}

static double double_of(uint64_t bits)
{
    double value;
    memcpy(&value, &bits, sizeof value);
    return value;
}

/* ---- A call ---- */

enum type { U8, U32, SIZE, I64, F32, F64, TYPES };

/* Bytes of an entry, in memory and in the file. */
static const size_t held_bytes[TYPES] = {1, 4, sizeof(size_t), 8, 4, 8};
static const size_t stored_bytes[TYPES] = {1, 4, 4, 8, 4, 8};

/* Something that is lent to be written: entries that are 77, and one more behind them. */
struct thing {
    enum type type;
    size_t len;
    void *entries;
};

enum { NUMBERS = 4, LISTS = 2, WIDE = 2, THINGS = 8 };

struct call {
    size_t numbers[NUMBERS];
    size_t lent[LISTS];
    size_t lens[LISTS];
    const uint8_t *lists[LISTS];
    size_t floats_len;
    float *floats;
    double wide[WIDE];
    struct thing things[THINGS];
};

static void set_77(const struct thing *thing, size_t i)
{
    switch (thing->type) {
    case U8: ((uint8_t *)thing->entries)[i] = 77; break;
    case U32: ((uint32_t *)thing->entries)[i] = 77; break;
    case SIZE: ((size_t *)thing->entries)[i] = 77; break;
    case I64: ((int64_t *)thing->entries)[i] = 77; break;
    case F32: ((float *)thing->entries)[i] = 77; break;
    default: ((double *)thing->entries)[i] = 77; break;
    }
}

/* The bits of an entry, the same for all NaNs. */
static uint64_t bits_of(const struct thing *thing, size_t i)
{
    uint32_t word;
    uint64_t wide;
    switch (thing->type) {
    case U8: return ((const uint8_t *)thing->entries)[i];
    case SIZE: return ((const size_t *)thing->entries)[i];
    case U32:
    case F32:
        memcpy(&word, (const uint32_t *)thing->entries + i, sizeof word);
        return thing->type == F32 && (word & 0x7fffffffu) > 0x7f800000u ? 0x7fc00000u : word;
    default:
        memcpy(&wide, (const uint64_t *)thing->entries + i, sizeof wide);
        return thing->type == F64 && (wide & 0x7fffffffffffffffu) > 0x7ff0000000000000u
                   ? 0x7ff8000000000000u
                   : wide;
    }
}

/* What is lent at a place, in the order of the function. */
static void *lend(struct call *c, size_t place, enum type type, size_t len)
{
    struct thing *thing = &c->things[place];
    thing->type = type;
    thing->len = len;
    thing->entries = room(len, held_bytes[type]);
    for (size_t i = 0; i < len + 1; i++) {
        set_77(thing, i);
    }
    return thing->entries;
}

static uint8_t *u8s(struct call *c, size_t place, size_t n) { return lend(c, place, U8, n); }
static uint32_t *u32s(struct call *c, size_t place, size_t n) { return lend(c, place, U32, n); }
static size_t *sizes(struct call *c, size_t place, size_t n) { return lend(c, place, SIZE, n); }
static int64_t *i64s(struct call *c, size_t place, size_t n) { return lend(c, place, I64, n); }
static float *f32s(struct call *c, size_t place, size_t n) { return lend(c, place, F32, n); }
static double *f64s(struct call *c, size_t place, size_t n) { return lend(c, place, F64, n); }

/* An argument of one byte. */
static uint8_t n8(const struct call *c, size_t i)
{
    if (c->numbers[i] > UINT8_MAX) {
        fail("has a number above 255 where a byte is due", file_name);
    }
    return (uint8_t)c->numbers[i];
}

/* Makes the call of a record. Each thing that is lent says its place: a compiler may make the
 * arguments in any order. What a function of floats returns takes the place of something lent. */
static uint8_t called(size_t function, struct call *c)
{
    const size_t *n = c->numbers;
    const uint8_t *list = c->lists[0], *more = c->lists[1];
    size_t len = c->lens[0], more_len = c->lens[1], lent = c->lent[0];
    const float *in = c->floats;
    size_t in_len = c->floats_len;
    switch (function) {
    case CARRIER_BIN:
        return sillurwy_carrier_bin(n8(c, 0), n[1], sizes(c, 0, 1));
    case ROLE_MAP:
        return sillurwy_role_map(n8(c, 0), n8(c, 1), list, len, u8s(c, 0, lent), lent);
    case SIGN_MAP:
        return sillurwy_sign_map(n8(c, 0), u8s(c, 0, lent), lent);
    case DATA_LIST:
        return sillurwy_data_list(n8(c, 0), n8(c, 1), list, len, u32s(c, 0, lent), lent);
    case CONTINUAL_LIST:
        return sillurwy_continual_list(n8(c, 0), list, len, u32s(c, 0, lent), lent,
                                       sizes(c, 1, 1));
    case SAMPLES_NEEDED:
        return sillurwy_samples_needed(list, len, more, more_len, n[0], sizes(c, 0, 1));
    case DETECT_MODE:
        return sillurwy_detect_mode(in, in_len, list, len, more, more_len, f64s(c, 0, lent), lent,
                                    u8s(c, 1, 1), u8s(c, 2, 1), u8s(c, 3, 1), sizes(c, 4, 1),
                                    f64s(c, 5, 1), f64s(c, 6, 1), f64s(c, 7, 1));
    case INTEGER_CFO:
        return sillurwy_integer_cfo(n8(c, 0), in, in_len, n[1], f32s(c, 0, lent), lent,
                                    i64s(c, 1, 1), f32s(c, 2, 1));
    case DETECT_KINDS:
        return sillurwy_detect_kinds(n8(c, 0), in, in_len, f32s(c, 0, lent), lent,
                                     u8s(c, 1, SILLURWY_SEGMENTS), f32s(c, 2, SILLURWY_SEGMENTS));
    case TMCC_SOFT:
        return sillurwy_tmcc_soft(n8(c, 0), list, len, in, in_len, n8(c, 1), f32s(c, 0, 1));
    case DETECT_SP_PHASE:
        return sillurwy_detect_sp_phase(n8(c, 0), list, len, in, in_len, u8s(c, 0, 1),
                                        u8s(c, 1, 1), f32s(c, 2, 1), u32s(c, 3, SILLURWY_PHASES),
                                        u32s(c, 4, 1));
    case ESTIMATE_GRID:
        return sillurwy_estimate_grid(n8(c, 0), n8(c, 1), list, len, in, in_len, n[2], n[3],
                                      f32s(c, 0, lent), lent);
    case ROOT: *f64s(c, 0, 1) = sillurwy_root(c->wide[0]); return 0;
    case NARROW: *f32s(c, 0, 1) = sillurwy_narrow(c->wide[0]); return 0;
    case NORM32: *f32s(c, 0, 1) = sillurwy_norm32(in[0], in[1]); return 0;
    case NORM64: *f64s(c, 0, 1) = sillurwy_norm64(c->wide[0], c->wide[1]); return 0;
    case FRAME_START:
        return sillurwy_frame_start(in, in_len, u8s(c, 0, 1), sizes(c, 1, 1), u8s(c, 2, 1));
    case BIN_RATIO: return sillurwy_bin_ratio(in, in_len, f32s(c, 0, 1));
    case CARRIER_ROLE:
        return sillurwy_carrier_role(n8(c, 0), n8(c, 1), list, len, n[2], u8s(c, 0, 1));
    case ANGLE: *i64s(c, 0, 1) = sillurwy_angle(c->wide[0], c->wide[1]); return 0;
    case CFO_FRAC: *f64s(c, 0, 1) = sillurwy_cfo_frac(c->wide[0], c->wide[1]); return 0;
    default: fail("has a function that is not known", file_name);
    }
    return 0;
}

/* ---- Records ---- */

static void read_numbers(size_t *numbers, size_t n)
{
    for (size_t i = 0; i < n; i++) {
        numbers[i] = length();
    }
}

/* A float in a byte is 128 more; in four bytes it has its bits. There is room for two at the least,
 * which a norm takes. */
static float *read_floats(size_t len, size_t width)
{
    float *floats = room(len + 1, sizeof *floats);
    for (size_t i = 0; i < len; i++) {
        floats[i] = width == 1 ? (float)((int)number(1) - 128) : float_of((uint32_t)number(4));
    }
    return floats;
}

static struct call read_call(void)
{
    struct call c = {0};
    read_numbers(c.numbers, NUMBERS);
    read_numbers(c.lent, LISTS);
    read_numbers(c.lens, LISTS);
    c.floats_len = length();
    size_t width = (size_t)number(1);
    size_t wide = (size_t)number(1);
    if ((width != 1 && width != 4) || wide > WIDE) {
        fail("makes no sense", file_name);
    }
    for (size_t i = 0; i < LISTS; i++) {
        c.lists[i] = take(c.lens[i]);
    }
    c.floats = read_floats(c.floats_len, width);
    for (size_t i = 0; i < wide; i++) {
        c.wide[i] = double_of(number(8));
    }
    return c;
}

/* Reads the stored answer of something lent: the first entries are written as it says, or all alike,
 * and every other one is 77 as before, also the one behind. */
static bool as_stored(size_t function, const struct thing *thing)
{
    size_t written = length();
    uint64_t alike = number(1);
    if (written > thing->len || alike > 1) {
        fail("makes no sense", file_name);
    }
    if (function == damaged && written > 0 && at < size) {
        bytes[at] ^= 1;
        damaged = NO_FUNCTION;
    }
    struct thing held = {thing->type, 1, room(1, held_bytes[thing->type])};
    set_77(&held, 0);
    bool good = true;
    uint64_t owed = 0;
    for (size_t i = 0; i < thing->len + 1; i++) {
        if (i >= written) {
            owed = bits_of(&held, 0);
        } else if (i == 0 || alike == 0) {
            owed = number(stored_bytes[thing->type]);
        }
        good &= bits_of(thing, i) == owed;
    }
    free(held.entries);
    return good;
}

static void replay_record(void)
{
    size_t function = (size_t)number(1);
    uint64_t code = number(1);
    struct call c = read_call();
    bool good = called(function, &c) == code;
    for (size_t i = 0; i < THINGS && c.things[i].entries != NULL; i++) {
        good &= as_stored(function, &c.things[i]);
        free(c.things[i].entries);
    }
    count(function, good);
    free(c.floats);
}

/* Calls with no coherent segment, whose answer is that there are no scattered pilots. A refusal is no
 * such answer: where `found` was 1 it still is, and where it was 0 or anything else too. */
static void detect_no_sp_phase(void)
{
    static const uint8_t kinds[] = {1, 1, 1, 1, 1, 1, 1, 1, 1, 1, 1, 1, 1};
    static const float few[] = {1, 2, 3};
    static const struct {
        uint8_t code, mode;
        size_t kinds_len, few_len;
    } tried[] = {{SILLURWY_ACCEPTED, 1, 13, 0},
                 {SILLURWY_BAD_MODE, 4, 13, 0},
                 {SILLURWY_BAD_KINDS, 1, 12, 0},
                 {SILLURWY_BAD_FLOATS, 1, 13, 3}};
    static const uint8_t before[] = {0, 1, 77};
    for (size_t i = 0; i < sizeof tried / sizeof *tried; i++) {
        for (size_t k = 0; k < sizeof before; k++) {
            uint8_t found = before[k], phase;
            float share;
            uint32_t counts[SILLURWY_PHASES], lead;
            uint8_t code = sillurwy_detect_sp_phase(tried[i].mode, kinds, tried[i].kinds_len, few,
                                                    tried[i].few_len, &found, &phase, &share,
                                                    counts, &lead);
            bool good = found == (code == SILLURWY_ACCEPTED ? 0 : before[k]);
            count(DETECT_SP_PHASE, code == tried[i].code && good);
        }
    }
}

int main(int words, char **word)
{
    for (size_t i = 1; (words == 3 || words == 4) && i < FUNCTIONS; i++) {
        if (strcmp(names[i], word[2]) == 0) {
            damaged = i;
        }
    }
    if (words != 2 && damaged == NO_FUNCTION) {
        fprintf(stderr, "usage: replay FILE [NAME [DAMAGED]]\n");
        return 2;
    }
    read_file(word[1]);
    while (at < size) {
        replay_record();
    }
    if (calls[DETECT_SP_PHASE] > 0) {
        detect_no_sp_phase();
    }
    if (words == 4) {
        write_file(word[3]);
    }
    free(bytes);

    unsigned long all = 0;
    unsigned long wrong = 0;
    for (size_t i = 1; i < FUNCTIONS; i++) {
        printf("%-16s %6lu calls, %lu differ\n", names[i], calls[i], differing[i]);
        if (calls[i] == 0) {
            fail("has no stored call, which oracle/store writes", names[i]);
        }
        all += calls[i];
        wrong += differing[i];
    }
    printf("replay: %lu calls, %lu differ\n", all, wrong);
    return wrong == 0 ? 0 : 1;
}
