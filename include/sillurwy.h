/* Sillurwy: carrier layout and acquisition for ISDB-T captures. The C functions of libhost.a, which
 * dev/built host_c writes to target/staticlib/. For C99 and later and C++11 and later, on x86-64.
 *
 * Each operation returns 0 (SILLURWY_ACCEPTED) or the number of its refusal. Refusals are listed in
 * their order: where several are true, the first is given. A refusal leaves everything lent as it
 * was, so nothing lent holds an answer unless 0 was returned. Every number and every float may be
 * handed over; an operation always returns.
 *
 * A list is a pointer and a length, which counts entries and not bytes. What the caller owes:
 *   - no pointer is null, also where its length is 0, and each is aligned for its type;
 *   - a pointer with a length points to that many entries, one without to a single number or to an
 *     array of the size written;
 *   - what is lent to be written overlaps nothing else that is lent in the same call.
 * Nothing else is asked of the caller. No function keeps a pointer, allocates, or has a state; they
 * may run on several threads at once. Shift and kinds take 66 KiB of stack, every other function
 * less than 8 KiB. */
#ifndef SILLURWY_H
#define SILLURWY_H

#include <stddef.h>
#include <stdint.h>

#ifdef __cplusplus
extern "C" {
#endif

/* ---- Refusals ---- */

enum sillurwy_refusal {
    SILLURWY_ACCEPTED = 0,
    SILLURWY_BAD_MODE = 1,    /* a mode other than 1, 2, 3 */
    SILLURWY_BAD_KINDS = 2,   /* not thirteen kinds of 0 or 1 */
    SILLURWY_BAD_PHASE = 3,   /* a phase above 3 */
    SILLURWY_BAD_FILTER = 3,  /* a filter of the soft TMCC value above 2 */
    SILLURWY_BAD_CARRIER = 4, /* a carrier at or above k_total */
    SILLURWY_BAD_INDEX = 4,   /* an index of no spectrum */
    SILLURWY_BAD_FLOATS = 5,  /* floats that are not whole spectra or samples, or too many */
    SILLURWY_NO_SPECTRA = 6,  /* no spectra */
    SILLURWY_BAD_LENGTH = 7,  /* an output of the wrong length, or too short a scratch */
    SILLURWY_BAD_BOUND = 8,   /* a bound above n/2 */
    SILLURWY_BAD_GUARD = 9,   /* a guard other than 4, 8, 16, 32 */
    SILLURWY_BAD_WINDOW = 10, /* a time window above 64 */
    SILLURWY_BAD_SYMBOLS = 10 /* more than 64 symbols */
};

/* ---- Codes ---- */

/* The kind of a segment. Kinds are handed over in segment-number order. */
enum sillurwy_segment_kind {
    SILLURWY_COHERENT = 0,
    SILLURWY_DIFFERENTIAL = 1
};

/* The role of a carrier in a symbol. Its name is written with `enum` in C++ too, since a function
 * has the same name. */
enum sillurwy_carrier_role {
    SILLURWY_DATA = 0,
    SILLURWY_SP = 1,   /* scattered pilot */
    SILLURWY_CP = 2,   /* continual pilot */
    SILLURWY_TMCC = 3,
    SILLURWY_AC1 = 4,
    SILLURWY_AC2 = 5,
    SILLURWY_EDGE = 6  /* the band's last carrier */
};

/* Which segments the soft TMCC value takes. */
enum sillurwy_filter {
    SILLURWY_FILTER_COHERENT = 0,
    SILLURWY_FILTER_DIFFERENTIAL = 1,
    SILLURWY_FILTER_ALL = 2
};

/* The synchronising words of a frame (ARIB STD-B31), bit B1 first. */
enum sillurwy_sync_word {
    SILLURWY_W0 = 0, /* 0011010111101110 */
    SILLURWY_W1 = 1  /* its complement, 1100101000010001 */
};

/* ---- Sizes. A macro over a mode gives 0 for a number that is no mode. ---- */

#define SILLURWY_BY_MODE(mode, one, two, three) \
    ((mode) == 1 ? (one) : (mode) == 2 ? (two) : (mode) == 3 ? (three) : 0ul)

#define SILLURWY_SEGMENTS 13ul
#define SILLURWY_PHASES 4ul

/* n, the bins of the FFT */
#define SILLURWY_FFT_SIZE(mode) SILLURWY_BY_MODE(mode, 2048ul, 4096ul, 8192ul)
/* c, the carriers of a segment */
#define SILLURWY_CARRIERS_PER_SEGMENT(mode) SILLURWY_BY_MODE(mode, 108ul, 216ul, 432ul)
/* nc, the data carriers of a segment */
#define SILLURWY_DATA_CARRIERS_PER_SEGMENT(mode) SILLURWY_BY_MODE(mode, 96ul, 192ul, 384ul)
/* k_total, the carriers of the band with its edge */
#define SILLURWY_TOTAL_CARRIERS(mode) SILLURWY_BY_MODE(mode, 1405ul, 2809ul, 5617ul)
/* 13 x nc, the numbers of the data list */
#define SILLURWY_DATA_LIST_LENGTH(mode) \
    (SILLURWY_SEGMENTS * SILLURWY_DATA_CARRIERS_PER_SEGMENT(mode))
/* the most numbers that the continual list has, whatever the kinds */
#define SILLURWY_CONTINUAL_LIST_MOST(mode) SILLURWY_BY_MODE(mode, 157ul, 313ul, 625ul)
/* the floats of the grid, k_total/3 + 2 pairs */
#define SILLURWY_GRID_LENGTH(mode) SILLURWY_BY_MODE(mode, 940ul, 1876ul, 3748ul)
/* the least entries of scratch for a number of pairs of samples */
#define SILLURWY_SCRATCH_LENGTH(pairs) (3ul * ((pairs) + 1ul))

#define SILLURWY_MOST_SPECTRA 1024ul
#define SILLURWY_MOST_SAMPLES 1048576ul /* pairs */
#define SILLURWY_MOST_SYMBOLS 64ul
#define SILLURWY_MOST_WINDOW 64ul

/* ---- Layout ---- */

/* The FFT bin of carrier k: (k - (k_total - 1)/2) mod n.
 *   bin  the answer
 * Refused: 1 bad mode; 4 k at or above k_total. */
uint8_t sillurwy_carrier_bin(uint8_t mode, size_t k, size_t *bin);

/* The role of each carrier of the band, enum sillurwy_carrier_role in a byte.
 *   phase  of the scattered pilots, 0 to 3
 *   kinds  thirteen, by segment number
 *   out    SILLURWY_TOTAL_CARRIERS(mode) bytes
 * Refused: 1 bad mode; 2 bad kinds; 3 bad phase; 7 out of another length. */
uint8_t sillurwy_role_map(uint8_t mode, uint8_t phase, const uint8_t *kinds, size_t kinds_len,
                          uint8_t *out, size_t out_len);

/* The role of carrier k alone, from the tables of its own segment: no map is built.
 *   phase, kinds  as for the role map
 *   k             0, the lowest frequency, to SILLURWY_TOTAL_CARRIERS(mode) - 1, the edge
 *   role          the answer, enum sillurwy_carrier_role in a byte: byte k of the role map
 * Refused: 1 bad mode; 2 bad kinds; 3 bad phase; 4 k at or above k_total. */
uint8_t sillurwy_carrier_role(uint8_t mode, uint8_t phase, const uint8_t *kinds, size_t kinds_len,
                              size_t k, uint8_t *role);

/* The pilot sign of each carrier of the band: 0 for +4/3, 1 for -4/3.
 *   out  SILLURWY_TOTAL_CARRIERS(mode) bytes
 * Refused: 1 bad mode; 7 out of another length. */
uint8_t sillurwy_sign_map(uint8_t mode, uint8_t *out, size_t out_len);

/* The data carriers of the band, in segment-number order, ascending within a segment.
 *   phase, kinds  as for the role map
 *   out           SILLURWY_DATA_LIST_LENGTH(mode) numbers
 * Refused: 1 bad mode; 2 bad kinds; 3 bad phase; 7 out of another length. */
uint8_t sillurwy_data_list(uint8_t mode, uint8_t phase, const uint8_t *kinds, size_t kinds_len,
                           uint32_t *out, size_t out_len);

/* The continual carriers: all TMCC, then all AC, then all CP, each ascending, then the edge.
 *   out    room for them: SILLURWY_CONTINUAL_LIST_MOST(mode) is enough for any kinds. What lies
 *          beyond the count keeps its contents
 *   count  how many there are
 * Refused: 1 bad mode; 2 bad kinds; 7 out shorter than the count. */
uint8_t sillurwy_continual_list(uint8_t mode, const uint8_t *kinds, size_t kinds_len,
                                uint32_t *out, size_t out_len, size_t *count);

/* ---- Acquisition. Floats are real and imaginary part in turn. ---- */

/* The samples, in pairs, that the guard search needs to try each mode and guard with at least
 * `symbols` symbols.
 *   modes, guards  lists of codes: 1, 2, 3 and 4, 8, 16, 32
 *   symbols        at most SILLURWY_MOST_SYMBOLS
 *   samples        the answer
 * Refused: 1 a bad mode in the list; 9 a bad guard; 10 too many symbols. */
uint8_t sillurwy_samples_needed(const uint8_t *modes, size_t modes_len, const uint8_t *guards,
                                size_t guards_len, size_t symbols, size_t *samples);

/* The guard search: mode, guard interval and timing of a capture.
 *   samples        samples_len floats, at most SILLURWY_MOST_SAMPLES pairs
 *   modes, guards  lists of codes, tried in this order
 *   scratch        SILLURWY_SCRATCH_LENGTH(samples_len / 2) entries or more; all zeros after an
 *                  accepted call
 *   found          1 if there is a guess, else 0; then what follows keeps its contents
 *   mode, guard    codes
 *   offset         the sample at which a guard interval starts
 *   metric         normalised correlation
 *   re, im         both parts of the summed correlation: sillurwy_cfo_frac has the fractional carrier
 *                  offset that they tell
 * Refused: 1 a bad mode in the list; 9 a bad guard; 5 an odd samples_len, or too many samples;
 * 7 too short a scratch. */
uint8_t sillurwy_detect_mode(const float *samples, size_t samples_len, const uint8_t *modes,
                             size_t modes_len, const uint8_t *guards, size_t guards_len,
                             double *scratch, size_t scratch_len, uint8_t *found, uint8_t *mode,
                             uint8_t *guard, size_t *offset, double *metric, double *re,
                             double *im);

/* The ratio of one bin, from its pairs alone: |sum of p x p| / sum of |p|^2, where p is the product
 * of a pair and the conjugate of the pair before it. Over many symbols a carrier that repeats itself,
 * or changes its sign alone, has about 1, and one that carries data about 0. Each ratio that
 * sillurwy_integer_cfo and sillurwy_detect_kinds leave is, bit for bit, what this gives for that
 * bin's pairs.
 *   pairs  the bin's pairs in symbol order, 1 to SILLURWY_MOST_SPECTRA of them, 2 floats each
 *   ratio  the answer, not below zero; it may be above 1 by rounding, and where a sum or the norm
 *          overflows it may be a NaN, infinite or +0.0. It is +0.0 where the divisor is not above
 *          zero, and so for a single pair
 * Refused: 5 an odd length, or too many pairs; 6 none. */
uint8_t sillurwy_bin_ratio(const float *pairs, size_t pairs_len, float *ratio);

/* The integer frequency offset of spectra, in bins.
 *   spectra  one behind another, 1 to SILLURWY_MOST_SPECTRA, each of n pairs by bin:
 *            2 x SILLURWY_FFT_SIZE(mode) floats
 *   bound    the largest shift that is tried, either way; at most n/2
 *   ratios   SILLURWY_FFT_SIZE(mode) floats: the ratio of each bin is left here
 *   shift    the answer, from -bound to bound
 *   score    its score
 * Refused: 1 bad mode; 5 not whole spectra, or too many; 6 none; 7 ratios of another length; 8 a
 * bound above n/2. */
uint8_t sillurwy_integer_cfo(uint8_t mode, const float *spectra, size_t spectra_len, size_t bound,
                             float *ratios, size_t ratios_len, int64_t *shift, float *score);

/* The kinds of the thirteen segments.
 *   spectra  one behind another, 1 to SILLURWY_MOST_SPECTRA, each of k_total pairs by carrier:
 *            2 x SILLURWY_TOTAL_CARRIERS(mode) floats
 *   ratios   SILLURWY_TOTAL_CARRIERS(mode) floats: the ratio of each carrier is left here
 *   kinds    the answer, by segment number: SILLURWY_SEGMENTS bytes
 *   scores   their scores: SILLURWY_SEGMENTS floats
 * Refused: 1 bad mode; 5 not whole spectra, or too many; 6 none; 7 ratios of another length. */
uint8_t sillurwy_detect_kinds(uint8_t mode, const float *spectra, size_t spectra_len,
                              float *ratios, size_t ratios_len, uint8_t kinds[SILLURWY_SEGMENTS],
                              float scores[SILLURWY_SEGMENTS]);

/* The soft value of the TMCC carriers between two spectra.
 *   kinds    thirteen, by segment number
 *   spectra  two, the earlier first, each of k_total pairs by carrier
 *   filter   enum sillurwy_filter
 *   value    the answer
 * Refused: 1 bad mode; 2 bad kinds; 5 not two spectra; 3 bad filter. */
uint8_t sillurwy_tmcc_soft(uint8_t mode, const uint8_t *kinds, size_t kinds_len,
                           const float *spectra, size_t spectra_len, uint8_t filter,
                           float *value);

/* The phase of the scattered pilots in spectrum 0, the first. That of spectrum `index` is
 * (phase + index) mod 4, and this is what the grid asks for.
 *   kinds         thirteen, by segment number
 *   spectra       one behind another, 0 to SILLURWY_MOST_SPECTRA, each of k_total pairs by carrier
 *   found         1 if there are scattered pilots, 0 if there are none; then phase and share keep
 *                 their contents. A refusal says neither: it leaves `found` as it was too
 *   phase, share  the phase, 0 to 3, and the share of the votes that it has
 *   counts        the votes for each phase, one from every spectrum, heard or not: SILLURWY_PHASES
 *                 numbers; all 0 where found is 0
 *   lead          the votes of the spectra that were heard, each turned back by its place among all
 *                 spectra, make four counts: the largest less the largest of the other three. It is
 *                 at most the number of spectra heard; 0 where none is heard, and where found is 0.
 *                 The phase with the most of these votes can be another than the answer
 * A spectrum is heard where the pilots of at least one of the four phases have energy above zero,
 * which a NaN is not. The energy is summed in float over the pairs of the phase's pilots that lie 12
 * carriers apart: the product of the two sizes, which is 0 where it is too small for a float.
 * Refused: 1 bad mode; 2 bad kinds; 5 not whole spectra, or too many. */
uint8_t sillurwy_detect_sp_phase(uint8_t mode, const uint8_t *kinds, size_t kinds_len,
                                 const float *spectra, size_t spectra_len, uint8_t *found,
                                 uint8_t *phase, float *share, uint32_t counts[SILLURWY_PHASES],
                                 uint32_t *lead);

/* A frame start: a place in a list of soft TMCC values at which sixteen of them spell one of the two
 * synchronising words. A value below zero reads as bit 1, every other as 0: NaN, -0.0 and +0.0 too.
 *   soft   the values in the order of their symbols, any number of them, none too
 *   found  1 if there is such a place, 0 if there is none; then start and word keep their contents
 *   start  the index of the word's first value, from 0: values start to start + 15 spell the word.
 *          Where there are several such places, any of them may be given; random bits spell a word
 *          too, at one place in 32,768. Where value j is sillurwy_tmcc_soft of spectra j and j + 1,
 *          the frame begins at spectrum `start`
 *   word   which one it is: enum sillurwy_sync_word
 * Nothing is refused: it always returns 0. */
uint8_t sillurwy_frame_start(const float *soft, size_t soft_len, uint8_t *found, size_t *start,
                             uint8_t *word);

/* ---- The channel. Floats are real and imaginary part in turn. ---- */

/* The pilot grid of a spectrum: the channel at every third carrier, from the pilots of the spectra
 * around it.
 *   phase    of the scattered pilots in the current spectrum, 0 to 3: where sillurwy_detect_sp_phase
 *            gave p for the same spectra, (p + index) mod 4, since it answers for spectrum 0
 *   kinds    thirteen, by segment number
 *   spectra  consecutive, one behind another, 1 to SILLURWY_MOST_SPECTRA, each of k_total pairs by
 *            carrier: 2 x SILLURWY_TOTAL_CARRIERS(mode) floats
 *   index    of the current one, from 0
 *   w        the time window, at most SILLURWY_MOST_WINDOW; 0 counts as 1
 *   grid     SILLURWY_GRID_LENGTH(mode) floats. Points that are not estimated keep their contents
 * Refused: 1 bad mode; 2 bad kinds; 3 bad phase; 5 not whole spectra, or too many; 6 none; 4 an index
 * outside; 10 w above 64; 7 a grid of another length. */
uint8_t sillurwy_estimate_grid(uint8_t mode, uint8_t phase, const uint8_t *kinds,
                               size_t kinds_len, const float *spectra, size_t spectra_len,
                               size_t index, size_t w, float *grid, size_t grid_len);

/* ---- Floats. They refuse nothing and return their value; of NaNs, any may be given. ---- */

/* The double nearest to the square root of x; a NaN below zero. */
double sillurwy_root(double x);

/* The float nearest to x. */
float sillurwy_narrow(double x);

/* The norm of a pair of floats: squares, sum and root in double, then narrowed. */
float sillurwy_norm32(float re, float im);

/* The norm of a pair of doubles: the root of the rounded sum of rounded squares. */
double sillurwy_norm64(double re, double im);

/* The angle of a pair of doubles in 1/65536 of a turn: above -32768 and at most 32768, half a turn.
 * It is worked out with whole numbers and a fixed table, and less than one unit from the true angle:
 * docs/ANGLE.md has how and why. On axes and diagonals it is exact. An infinity or a NaN in either
 * part gives 0, and so do two zeros; the sign of a zero does not matter. For every other pair:
 *   - a quarter turn, which makes (-im, re) of (re, im), adds 16384 round the circle;
 *   - a change of the sign of im changes the sign of the angle, except that 32768 stays;
 *   - a power of two by which both parts are multiplied, where that is exact, leaves the angle. */
int32_t sillurwy_angle(double re, double im);

/* The fractional carrier offset of a capture, in carrier spacings, each of which is a turn in n
 * samples: from -0.5 up to, not including, 0.5.
 *   re, im  both parts of the summed correlation, as sillurwy_detect_mode gives them with a guess
 * It is the angle of the pair, negated as a whole number and then divided by 65536: angle 0 gives
 * +0.0, and so do two zeros, an infinity or a NaN; angle 32768 gives -0.5.
 * The correlation sums products of sample x[i] and the conjugate of x[i + n]. A positive offset is
 * one in which carriers sit above their bins: all frequencies are too high by that much of a carrier
 * spacing. To take it off, multiply sample i by exp(-2 pi j cfo_frac i / n), where j is the imaginary
 * unit and n is SILLURWY_FFT_SIZE of the guess's mode.
 * This is the fraction alone. Whole carrier spacings are the shift that sillurwy_integer_cfo gives
 * for spectra of samples from which the fraction was taken off, and the two add up. */
double sillurwy_cfo_frac(double re, double im);

#ifdef __cplusplus
}
#endif

#endif
