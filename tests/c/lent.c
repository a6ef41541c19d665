#define _DEFAULT_SOURCE
#include "lent.h"

#include <string.h>
#include <sys/mman.h>
#include <unistd.h>

#define SLOTS 16
#define MARGIN 64

/* A buffer. Its memory is kept for the next call. */
struct slot {
    const char *name;
    enum use use;
    uint8_t *at; /* the lent bytes */
    size_t bytes;
    size_t size; /* bytes of an entry */
    uint8_t *area; /* with the margin */
    size_t area_bytes;
    uint8_t *memory; /* between the two pages that cannot be touched */
    size_t room;
    uint8_t *copy;
    bool at_end;
    bool nans;
    size_t turn; /* of its NaNs */
};

static struct slot slots[SLOTS];
static size_t used;
static unsigned long nans_held;

void lent_start(void)
{
    used = 0;
}

static uint8_t *mapped(size_t bytes, int access)
{
    void *memory = mmap(NULL, bytes, access, MAP_PRIVATE | MAP_ANONYMOUS, -1, 0);
    if (memory == MAP_FAILED) {
        problem("no memory for", "buffers", (long)bytes);
    }
    return memory;
}

/* Gives the slot room for this many bytes. */
static void make_room(struct slot *slot, size_t bytes)
{
    size_t page = (size_t)sysconf(_SC_PAGESIZE);
    size_t room = page;
    if (bytes <= slot->room) {
        return;
    }
    while (room < bytes) {
        room *= 2;
    }
    if (slot->room > 0) {
        munmap(slot->memory - page, slot->room + 2 * page);
        munmap(slot->copy, slot->room);
    }
    slot->memory = mapped(room + 2 * page, PROT_NONE) + page;
    if (mprotect(slot->memory, room, PROT_READ | PROT_WRITE) != 0) {
        problem("no memory for", "buffers", (long)bytes);
    }
    slot->copy = mapped(room, PROT_READ | PROT_WRITE);
    slot->room = room;
}

void *lent(const char *name, size_t len, size_t size, enum use use, bool at_end)
{
    struct slot *slot = &slots[used];
    if (used++ == SLOTS) {
        problem("too many buffers:", name, 0);
    }
    slot->name = name;
    slot->use = use;
    slot->at_end = at_end;
    slot->nans = false;
    slot->bytes = len * size;
    slot->size = size;
    slot->area_bytes = slot->bytes + MARGIN;
    make_room(slot, slot->area_bytes);
    slot->area = at_end ? slot->memory + (slot->room - slot->area_bytes) : slot->memory;
    slot->at = at_end ? slot->area + MARGIN : slot->area;
    for (size_t i = 0; i < slot->area_bytes; i++) {
        slot->area[i] = (uint8_t)(0xa5 + 37 * i + (i >> 8));
    }
    return slot->at;
}

/* What entry i of a buffer is lent as. */
enum sort { NUMBER, NAN_ABOVE = 4, NAN_ABOVE_QUIET, NAN_BELOW, NAN_BELOW_QUIET };

static enum sort sort_of(const struct slot *slot, size_t i)
{
    size_t sort = (slot->turn + i) % 8;
    return slot->nans && sort >= 4 ? (enum sort)sort : NUMBER;
}

/* The bit by which a NaN is quiet. */
static uint64_t quiet_bit(const struct slot *slot)
{
    return slot->size == 4 ? UINT64_C(1) << 22 : UINT64_C(1) << 51;
}

/* An entry's bits, on a machine that has the low byte first. */
static uint64_t bits_at(const struct slot *slot, size_t i)
{
    uint64_t bits = 0;
    memcpy(&bits, slot->at + i * slot->size, slot->size);
    return bits;
}

static void put_bits(struct slot *slot, size_t i, uint64_t bits)
{
    memcpy(slot->at + i * slot->size, &bits, slot->size);
}

void lent_nans(size_t turn)
{
    struct slot *slot = &slots[used - 1];
    uint64_t quiet = quiet_bit(slot);
    uint64_t sign = UINT64_C(1) << (8 * slot->size - 1);
    /* All bits of the exponent, and the digit behind the quiet bit, so that no NaN is an infinity. */
    uint64_t nan = slot->size == 4 ? UINT64_C(0x7fa00000) : UINT64_C(0x7ff4000000000000);
    slot->nans = true;
    slot->turn = turn % 8;
    for (size_t i = 0; i < slot->bytes / slot->size; i++) {
        enum sort sort = sort_of(slot, i);
        bool is_quiet = sort == NAN_ABOVE_QUIET || sort == NAN_BELOW_QUIET;
        bool is_below = sort == NAN_BELOW || sort == NAN_BELOW_QUIET;
        if (sort != NUMBER) {
            uint64_t digits = bits_at(slot, i) & (quiet / 2 - 1);
            put_bits(slot, i, digits | nan | (is_quiet ? quiet : 0) | (is_below ? sign : 0));
        }
    }
}

/* Counts the NaNs among the entries of these bytes. */
static void count_nans(const struct slot *slot, const uint8_t *from, size_t bytes)
{
    size_t first = (size_t)(from - slot->at) / slot->size;
    for (size_t i = first; slot->nans && i < first + bytes / slot->size; i++) {
        nans_held += sort_of(slot, i) != NUMBER;
    }
}

unsigned long lent_nans_held(void)
{
    return nans_held;
}

void lent_ready(void)
{
    for (size_t i = 0; i < used; i++) {
        memcpy(slots[i].copy, slots[i].area, slots[i].area_bytes);
    }
}

/* Holds some bytes of a buffer to the copy, from a place in its area on. */
static void hold(const struct slot *slot, size_t from, size_t bytes, const char *what)
{
    if (memcmp(slot->area + from, slot->copy + from, bytes) == 0) {
        return;
    }
    size_t i = from;
    while (slot->area[i] == slot->copy[i]) {
        i++;
    }
    problem(what, slot->name, (long)i - (long)(slot->at - slot->area));
}

void lent_check(bool refused)
{
    for (size_t i = 0; i < used; i++) {
        const struct slot *slot = &slots[i];
        size_t margin = slot->at_end ? 0 : slot->bytes;
        hold(slot, margin, MARGIN, "memory around the buffer was written:");
        if (slot->use == TO_READ) {
            hold(slot, 0, slot->area_bytes, "what was lent to be read was written:");
        } else if (refused) {
            hold(slot, 0, slot->area_bytes, "a refusal wrote:");
            count_nans(slot, slot->at, slot->bytes);
        }
    }
}

bool lent_kept(const void *from, size_t bytes)
{
    const uint8_t *at = from;
    for (size_t i = 0; i < used; i++) {
        const struct slot *slot = &slots[i];
        if (bytes > 0 && at >= slot->at && at < slot->at + slot->bytes) {
            count_nans(slot, at, bytes);
            return memcmp(at, slot->copy + (at - slot->area), bytes) == 0;
        }
    }
    return true;
}

/* Changes the last entry, if the call wrote it, or if it did not. With the highest bit of each byte
 * turned, every number leaves its range: it is far from zero, and a share is below it. */
static void change_last(struct slot *slot, bool written)
{
    uint8_t *last = slot->at + slot->bytes - slot->size;
    if (slot->bytes == 0 || lent_kept(last, slot->size) == written) {
        return;
    }
    for (size_t i = 0; i < slot->size; i++) {
        last[i] ^= 0x80;
    }
}

/* Makes the last signalling NaN that was kept a quiet one. */
static void quiet_last(struct slot *slot)
{
    for (size_t i = slot->bytes / slot->size; i > 0; i--) {
        enum sort sort = sort_of(slot, i - 1);
        bool is_signalling = sort == NAN_ABOVE || sort == NAN_BELOW;
        if (is_signalling && lent_kept(slot->at + (i - 1) * slot->size, slot->size)) {
            put_bits(slot, i - 1, bits_at(slot, i - 1) | quiet_bit(slot));
            return;
        }
    }
}

void lent_mistake(enum mistake mistake, const char *name, bool refused)
{
    for (size_t i = 0; i < used; i++) {
        struct slot *slot = &slots[i];
        bool writes = slot->use == TO_WRITE;
        bool named = writes && strcmp(slot->name, name) == 0;
        if (mistake == WRITE_BEHIND && writes && !slot->at_end) {
            slot->at[slot->bytes] ^= 1;
        } else if (mistake == WRITE_BEFORE && writes && slot->at_end) {
            slot->at[-1] ^= 1;
        } else if (mistake == WRITE_READ_ONLY && !writes && slot->bytes > 0) {
            slot->at[slot->bytes - 1] ^= 1;
        } else if (mistake == WRITE_REFUSED && refused && writes && slot->bytes > 0) {
            slot->at[slot->bytes / 2] ^= 1;
        } else if (mistake == READ_BEHIND && slot->at_end) {
            volatile uint8_t *behind = slot->at + slot->bytes;
            (void)*behind;
        } else if (mistake == READ_BEFORE && !slot->at_end) {
            volatile uint8_t *before = slot->at - 1;
            (void)*before;
        } else if ((mistake == WRONG_ANSWER || mistake == WRITE_KEPT) && named && !refused) {
            change_last(slot, mistake == WRONG_ANSWER);
        } else if ((mistake == REFUSED_NAN && named && refused) ||
                   (mistake == KEPT_NAN && named && !refused)) {
            quiet_last(slot);
        } else {
            continue;
        }
        return;
    }
}
