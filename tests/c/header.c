/* The header by itself: it is compiled as C and as C++, as strictly as the compiler can, and its
 * constants are compared with the numbers of document 01. Nothing of this file is run. */
#include "sillurwy.h"
#include "sillurwy.h"

/* An array of a negative size is an error: the compiler tests each line. */
#define HOLDS(name, test) typedef char name[(test) ? 1 : -1]

/* Refusals. */
HOLDS(accepted, SILLURWY_ACCEPTED == 0);
HOLDS(bad_mode, SILLURWY_BAD_MODE == 1);
HOLDS(bad_kinds, SILLURWY_BAD_KINDS == 2);
HOLDS(bad_phase, SILLURWY_BAD_PHASE == 3);
HOLDS(bad_filter, SILLURWY_BAD_FILTER == 3);
HOLDS(bad_carrier, SILLURWY_BAD_CARRIER == 4);
HOLDS(bad_index, SILLURWY_BAD_INDEX == 4);
HOLDS(bad_floats, SILLURWY_BAD_FLOATS == 5);
HOLDS(no_spectra, SILLURWY_NO_SPECTRA == 6);
HOLDS(bad_length, SILLURWY_BAD_LENGTH == 7);
HOLDS(bad_bound, SILLURWY_BAD_BOUND == 8);
HOLDS(bad_guard, SILLURWY_BAD_GUARD == 9);
HOLDS(bad_window, SILLURWY_BAD_WINDOW == 10);
HOLDS(bad_symbols, SILLURWY_BAD_SYMBOLS == 10);

/* Codes. */
HOLDS(coherent, SILLURWY_COHERENT == 0);
HOLDS(differential, SILLURWY_DIFFERENTIAL == 1);
HOLDS(data, SILLURWY_DATA == 0);
HOLDS(sp, SILLURWY_SP == 1);
HOLDS(cp, SILLURWY_CP == 2);
HOLDS(tmcc, SILLURWY_TMCC == 3);
HOLDS(ac1, SILLURWY_AC1 == 4);
HOLDS(ac2, SILLURWY_AC2 == 5);
HOLDS(edge, SILLURWY_EDGE == 6);
/* Both can be named, although they share a name. */
HOLDS(role_enum, sizeof(enum sillurwy_carrier_role) > 0);
HOLDS(role_function, sizeof(&sillurwy_carrier_role) > 0);
HOLDS(filter_coherent, SILLURWY_FILTER_COHERENT == 0);
HOLDS(filter_differential, SILLURWY_FILTER_DIFFERENTIAL == 1);
HOLDS(filter_all, SILLURWY_FILTER_ALL == 2);
HOLDS(w0, SILLURWY_W0 == 0);
HOLDS(w1, SILLURWY_W1 == 1);

/* Sizes. */
HOLDS(segments, SILLURWY_SEGMENTS == 13);
HOLDS(phases, SILLURWY_PHASES == 4);
HOLDS(most_spectra, SILLURWY_MOST_SPECTRA == 1024);
HOLDS(most_samples, SILLURWY_MOST_SAMPLES == 1048576);
HOLDS(most_symbols, SILLURWY_MOST_SYMBOLS == 64);
HOLDS(most_window, SILLURWY_MOST_WINDOW == 64);

#define MODE_HOLDS(m, n, c, nc, k)                                  \
    HOLDS(n_of_mode_##m, SILLURWY_FFT_SIZE(m) == (n));              \
    HOLDS(c_of_mode_##m, SILLURWY_CARRIERS_PER_SEGMENT(m) == (c));  \
    HOLDS(nc_of_mode_##m, SILLURWY_DATA_CARRIERS_PER_SEGMENT(m) == (nc)); \
    HOLDS(k_of_mode_##m, SILLURWY_TOTAL_CARRIERS(m) == (k));        \
    HOLDS(band_of_mode_##m, 13 * (c) + 1 == (k));                   \
    HOLDS(data_of_mode_##m, SILLURWY_DATA_LIST_LENGTH(m) == 13 * (nc)); \
    HOLDS(grid_of_mode_##m, SILLURWY_GRID_LENGTH(m) == 2 * ((k) / 3 + 2)); \
    HOLDS(continual_of_mode_##m, SILLURWY_CONTINUAL_LIST_MOST(m) == 13 * ((c) - (nc)) + 1)

MODE_HOLDS(1, 2048, 108, 96, 1405);
MODE_HOLDS(2, 4096, 216, 192, 2809);
MODE_HOLDS(3, 8192, 432, 384, 5617);
HOLDS(no_mode_0, SILLURWY_FFT_SIZE(0) == 0);
HOLDS(no_mode_4, SILLURWY_TOTAL_CARRIERS(4) == 0);
HOLDS(scratch_of_none, SILLURWY_SCRATCH_LENGTH(0) == 3);
HOLDS(scratch_of_seven, SILLURWY_SCRATCH_LENGTH(7) == 24);

/* The library was made for these widths. */
HOLDS(usize_has_8_bytes, sizeof(size_t) == 8);
HOLDS(f32_has_4_bytes, sizeof(float) == 4);
HOLDS(f64_has_8_bytes, sizeof(double) == 8);
