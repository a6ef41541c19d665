/* Buffers to lend to a function under test. Each ends at a page that cannot be touched, or starts
 * behind one; on its other side lie margin bytes. All is copied before the call, so that every byte
 * that was written can be told after it. The library is compiled without a sanitizer's help: the
 * pages find what it reads or writes outside, the margins and copies find the rest. */
#ifndef LENT_H
#define LENT_H

#include <stdbool.h>
#include <stddef.h>
#include <stdint.h>

enum use { TO_READ, TO_WRITE };

/* Told what is wrong; it does not return. The fuzz driver has it. */
void problem(const char *what, const char *name, long place);

/* Forgets the buffers of the last call. */
void lent_start(void);

/* A buffer of `len` entries of `size` bytes each, filled with a pattern. */
void *lent(const char *name, size_t len, size_t size, enum use use, bool at_end);

/* The buffer lent last is one of floats, or of doubles: of eight entries side by side four become
 * NaNs, quiet and signalling, of both signs, each with other digits. `turn` decides which four. */
void lent_nans(size_t turn);

/* Keeps a copy of every buffer: the call comes next. */
void lent_ready(void);

/* Holds every buffer to its copy: what is to be read and all margins are as they were, and after a
 * refusal everything is. */
void lent_check(bool refused);

/* True if these bytes of a lent buffer are as they were. */
bool lent_kept(const void *from, size_t bytes);

/* How many of these NaNs were held to their copies, since they were not to be written. */
unsigned long lent_nans_held(void);

/* The mistakes that a wrong function could make. */
enum mistake {
    NO_MISTAKE,
    WRITE_BEHIND,    /* into a margin */
    WRITE_BEFORE,    /* into a margin */
    WRITE_READ_ONLY, /* what was lent to be read */
    WRITE_REFUSED,   /* and refuse */
    READ_BEHIND,     /* in the page behind */
    READ_BEFORE,     /* in the page before */
    WRONG_CODE,      /* or a wrong value of a function of floats */
    WRONG_ANSWER,    /* an entry out of its range, in place of one that was written */
    WRITE_KEPT,      /* an entry that an accepted call leaves as it was */
    REFUSED_NAN,     /* another NaN in the place of one, and refuse */
    KEPT_NAN,        /* another NaN in the place of one that an accepted call leaves as it was */
    MISTAKES
};

/* Makes one with the buffers, so that the checks can be seen to find it; the last four are made in
 * the buffer of this name. Nothing is done where the last call gives no occasion for it. */
void lent_mistake(enum mistake mistake, const char *name, bool refused);

#endif
