/* Random draws that are exact, that stop, and that are proved: four generators and the draws over them, for C11 and C++.
 *
 *     vrd_random unit;
 *     vrd_xoshiro_with_seed(&unit, 42);
 *     vrd_number inlet = vrd_bounded(&unit, 40, 100);   below 40, with at most 100 words
 *     if (inlet.refusal == VRD_ANSWERED) ...            inlet.value was drawn; it took inlet.used words
 *
 * The library is the archive of the Rattle crate vrd_ffi. `make install PREFIX=/some/folder` in the root of the repository installs it,
 * and then `cc program.c $(pkg-config --cflags --libs vrd)` finds it. Without installing:
 *
 *     tools/archive vrd_ffi
 *     cc -I include program.c target/staticlib/libvrd_ffi.a
 *
 * Rules that hold for every call:
 *
 * - A generator is a vrd_random that a making call has written. Calls change it where it stands; copying it by = forks it. Calls on
 *   generators that share no memory may run at the same time.
 * - Every answer has a refusal: VRD_ANSWERED (0), or the number that says why not. Refused, the rest of the answer is 0, and generator,
 *   lists and buffers are as they were. A call that returns a uint32_t returns the refusal itself.
 * - A kind above 3 in state[0] is refused with VRD_KIND by every call that takes a generator, before anything else is looked at.
 * - A budget, any number of 32 bits, is the most words that a call may look at; `used` is how many its answer took. Where they don't
 *   suffice the call is refused with VRD_BUDGET, which is looked at last. A larger budget never changes an answer given.
 * - A list or a buffer is an address and a number of entries. The address is never NULL, also where the number is 0, and what it names may
 *   not overlap the generator. */
#ifndef VRD_H
#define VRD_H

#include <stdbool.h>
#include <stddef.h>
#include <stdint.h>

#ifdef __cplusplus
extern "C" {
#endif

/* A generator. state: the kind; the twister's position, of which the low 32 bits count; and four words: of kind 0 its state, of kind 2
 * state and increment, of kind 3 the state's high and low word and the increment's. The table is kind 1's. A call leaves alone what the
 * kind does not use. All of it may be set by hand: any words draw by the same rules. At a position of 624 and above the next word renews
 * the table first. */
typedef struct { uint64_t state[6]; uint32_t table[624]; } vrd_random;

/* Kinds. */
enum {
    VRD_XOSHIRO256PLUSPLUS = 0,
    VRD_MERSENNE_TWISTER = 1,
    VRD_PCG32 = 2,
    VRD_PCG64 = 3
};

/* Refusals. */
enum {
    VRD_ANSWERED = 0,
    VRD_ZERO_RANGE = 1,   /* vrd_bounded by 0 */
    VRD_ORDER = 2,        /* ends out of order */
    VRD_CHANCE = 3,       /* a chance that is NaN, below 0 or above 1 */
    VRD_EMPTY = 4,        /* an empty list */
    VRD_TOO_LONG = 5,     /* a list above vrd_list_limit() */
    VRD_WINDOW = 6,       /* a window of 0, or longer than the list */
    VRD_NOT_FINITE = 7,   /* an end, or the distance of the ends, is not finite */
    VRD_BUDGET = 8,       /* the draws don't finish within the budget */
    VRD_NO_SPLIT = 9,     /* vrd_split of kinds 1, 2, 3 */
    VRD_KIND = 10,        /* a kind above 3 */
    VRD_SEED_LENGTH = 11  /* a byte seed that is not of the kind's length */
};

/* Answers: a word, a word read as signed, a float, a double. */
typedef struct { uint64_t value; uint32_t refusal; } vrd_word;
typedef struct { int64_t value; uint32_t refusal; } vrd_signed_word;
typedef struct { float value; uint32_t refusal; } vrd_number32;
typedef struct { double value; uint32_t refusal; } vrd_number64;

/* Answers with the words used: a number below 2^32 (of vrd_rand_slice: a place), a signed number, a bool, an entry with its place. */
typedef struct { uint64_t value; uint32_t used; uint32_t refusal; } vrd_number;
typedef struct { uint32_t used; uint32_t refusal; int32_t value; } vrd_integer;
typedef struct { uint32_t used; uint32_t refusal; bool value; } vrd_coin;
typedef struct { uint64_t place; uint64_t value; uint32_t used; uint32_t refusal; } vrd_choice;

/* Whether two generators are equal. */
typedef struct { uint32_t refusal; bool equal; } vrd_equality;

/* A number of 128 bits. */
typedef struct { uint64_t high; uint64_t low; } vrd_wide;

/* What the archive exports: the calls below over the two arrays of a generator. */
void vrd_xoshiro_with_seed_in(uint64_t *state, uint64_t seed);
void vrd_mersenne_twister_with_seed_in(uint64_t *state, uint32_t *table, uint32_t seed);
void vrd_pcg32_with_seed_in(uint64_t *state, uint64_t seed);
void vrd_pcg64_with_seed_in(uint64_t *state, vrd_wide seed);
void vrd_pcg32_with_stream_in(uint64_t *state, uint64_t seed, uint64_t stream);
void vrd_pcg64_with_stream_in(uint64_t *state, vrd_wide seed, vrd_wide stream);
uint32_t vrd_make_in(uint64_t *state, uint32_t *table, uint32_t kind, const uint8_t *seed, size_t length);
vrd_word vrd_rand_in(uint64_t *state, uint32_t *table);
vrd_word vrd_u64_in(uint64_t *state, uint32_t *table);
vrd_signed_word vrd_i64_in(uint64_t *state, uint32_t *table);
vrd_word vrd_pseudo_in(uint64_t *state, uint32_t *table);
uint32_t vrd_fill_bytes_in(uint64_t *state, uint32_t *table, uint8_t *dest, size_t length);
vrd_number vrd_bounded_in(uint64_t *state, uint32_t *table, uint32_t bound, uint32_t budget);
vrd_number vrd_random_range_in(uint64_t *state, uint32_t *table, uint32_t min, uint32_t max, uint32_t budget);
vrd_number vrd_uint_in(uint64_t *state, uint32_t *table, uint32_t min, uint32_t max, uint32_t budget);
vrd_integer vrd_int_in(uint64_t *state, uint32_t *table, int32_t min, int32_t max, uint32_t budget);
vrd_integer vrd_range_in(uint64_t *state, uint32_t *table, int32_t min, int32_t max, uint32_t budget);
vrd_number vrd_char_in(uint64_t *state, uint32_t *table, uint32_t budget);
vrd_choice vrd_choose_in(uint64_t *state, uint32_t *table, const uint32_t *list, size_t length, uint32_t budget);
vrd_number vrd_rand_slice_in(uint64_t *state, uint32_t *table, const uint32_t *list, size_t length, size_t window, uint32_t budget);
vrd_number vrd_shuffle_in(uint64_t *state, uint32_t *table, uint32_t *list, size_t length, uint32_t budget);
vrd_number32 vrd_float_in(uint64_t *state, uint32_t *table);
vrd_number64 vrd_double_in(uint64_t *state, uint32_t *table);
vrd_coin vrd_bool_in(uint64_t *state, uint32_t *table, double chance);
vrd_number64 vrd_uniform_in(uint64_t *state, uint32_t *table, double low, double high);
uint32_t vrd_seed_in(uint64_t *state, uint32_t *table, uint32_t seed);
uint32_t vrd_twist_in(uint64_t *state, uint32_t *table);
uint32_t vrd_set_mti_in(uint64_t *state, uint32_t value);
vrd_word vrd_mti_in(const uint64_t *state);
uint32_t vrd_split_in(uint64_t *state, uint64_t *child);
vrd_equality vrd_same_in(const uint64_t *state, const uint32_t *table, const uint64_t *other, const uint32_t *other_table);

/* The most entries that a list may have. */
uint64_t vrd_list_limit(void);

/* ---- Making ---- They write a generator into g, whatever it held; only kind 1 writes the table. */

/* Xoshiro256++ (kind 0) from a seed. Seed 0 is replaced by a constant. Refuses nothing. */
static inline void vrd_xoshiro_with_seed(vrd_random *g, uint64_t seed)
{
    vrd_xoshiro_with_seed_in(g->state, seed);
}

/* The Mersenne Twister MT19937 (kind 1) from a seed. Refuses nothing. */
static inline void vrd_mersenne_twister_with_seed(vrd_random *g, uint32_t seed)
{
    vrd_mersenne_twister_with_seed_in(g->state, g->table, seed);
}

/* Pcg32 (kind 2) from a seed, on the default stream. Refuses nothing. */
static inline void vrd_pcg32_with_seed(vrd_random *g, uint64_t seed)
{
    vrd_pcg32_with_seed_in(g->state, seed);
}

/* Pcg64 (kind 3) from a seed, on the default stream. Refuses nothing. */
static inline void vrd_pcg64_with_seed(vrd_random *g, vrd_wide seed)
{
    vrd_pcg64_with_seed_in(g->state, seed);
}

/* Pcg32 from a seed and a stream. Refuses nothing. */
static inline void vrd_pcg32_with_stream(vrd_random *g, uint64_t seed, uint64_t stream)
{
    vrd_pcg32_with_stream_in(g->state, seed, stream);
}

/* Pcg64 from a seed and a stream. Refuses nothing. */
static inline void vrd_pcg64_with_stream(vrd_random *g, vrd_wide seed, vrd_wide stream)
{
    vrd_pcg64_with_stream_in(g->state, seed, stream);
}

/* A generator of any kind from bytes: 32, 32, 16 and 32 of them for the kinds 0 to 3. Refuses with VRD_KIND, then VRD_SEED_LENGTH; a
 * vrd_random that was no generator before is none then. */
static inline uint32_t vrd_make(vrd_random *g, uint32_t kind, const uint8_t *seed, size_t length)
{
    return vrd_make_in(g->state, g->table, kind, seed, length);
}

/* ---- Words ---- */

/* The next word of 32 bits; on kinds 0 and 3 the high half of a word of 64. */
static inline vrd_word vrd_rand(vrd_random *g)
{
    return vrd_rand_in(g->state, g->table);
}

/* The next word of 64 bits: one word of kinds 0 and 3, two of kind 1 (the high half first) and of kind 2 (the low half first). */
static inline vrd_word vrd_u64(vrd_random *g)
{
    return vrd_u64_in(g->state, g->table);
}

/* vrd_u64, read as a signed number. */
static inline vrd_signed_word vrd_i64(vrd_random *g)
{
    return vrd_i64_in(g->state, g->table);
}

/* 32 words of 32 bits XORed. */
static inline vrd_word vrd_pseudo(vrd_random *g)
{
    return vrd_pseudo_in(g->state, g->table);
}

/* Fills the buffer: by words of 8 bytes on kinds 0 and 3, of 4 on kinds 1 and 2, the lowest byte first. A short tail takes a whole word. */
static inline uint32_t vrd_fill_bytes(vrd_random *g, uint8_t *dest, size_t length)
{
    return vrd_fill_bytes_in(g->state, g->table, dest, length);
}

/* ---- Numbers within a budget ---- Each value is exactly as likely as every other. */

/* A number below the bound. Refuses with VRD_ZERO_RANGE where that is 0. */
static inline vrd_number vrd_bounded(vrd_random *g, uint32_t bound, uint32_t budget)
{
    return vrd_bounded_in(g->state, g->table, bound, budget);
}

/* A number from min up to max - 1. Refuses with VRD_ORDER where min is not below max. */
static inline vrd_number vrd_random_range(vrd_random *g, uint32_t min, uint32_t max, uint32_t budget)
{
    return vrd_random_range_in(g->state, g->table, min, max, budget);
}

/* A number from min up to max, both included; equal ends take no word. Refuses with VRD_ORDER where min is above max. */
static inline vrd_number vrd_uint(vrd_random *g, uint32_t min, uint32_t max, uint32_t budget)
{
    return vrd_uint_in(g->state, g->table, min, max, budget);
}

/* vrd_uint over signed numbers. */
static inline vrd_integer vrd_int(vrd_random *g, int32_t min, int32_t max, uint32_t budget)
{
    return vrd_int_in(g->state, g->table, min, max, budget);
}

/* vrd_int by its other name. */
static inline vrd_integer vrd_range(vrd_random *g, int32_t min, int32_t max, uint32_t budget)
{
    return vrd_range_in(g->state, g->table, min, max, budget);
}

/* The ASCII code of a letter from 'a' to 'z'. */
static inline vrd_number vrd_char(vrd_random *g, uint32_t budget)
{
    return vrd_char_in(g->state, g->table, budget);
}

/* ---- Lists within a budget ---- All refuse a list above vrd_list_limit() with VRD_TOO_LONG. */

/* An entry of the list, with its place. Refuses with VRD_EMPTY, then VRD_TOO_LONG. */
static inline vrd_choice vrd_choose(vrd_random *g, const uint32_t *list, size_t length, uint32_t budget)
{
    return vrd_choose_in(g->state, g->table, list, length, budget);
}

/* The place where a part of the list starts that is `window` long. Refuses with VRD_EMPTY, VRD_TOO_LONG, then VRD_WINDOW. */
static inline vrd_number vrd_rand_slice(vrd_random *g, const uint32_t *list, size_t length, size_t window, uint32_t budget)
{
    return vrd_rand_slice_in(g->state, g->table, list, length, window, budget);
}

/* Puts the list into another order, all its draws under one budget; the value is 0. Lists of 0 and 1 entries take no word. */
static inline vrd_number vrd_shuffle(vrd_random *g, uint32_t *list, size_t length, uint32_t budget)
{
    return vrd_shuffle_in(g->state, g->table, list, length, budget);
}

/* ---- Floats ---- */

/* A number from 0 up to, but not including, 1, of 24 bits: (word >> 8) / 2^24. */
static inline vrd_number32 vrd_float(vrd_random *g)
{
    return vrd_float_in(g->state, g->table);
}

/* A number from 0 up to, but not including, 1, of 53 bits: (64-bit word >> 11) / 2^53. */
static inline vrd_number64 vrd_double(vrd_random *g)
{
    return vrd_double_in(g->state, g->table);
}

/* True with this chance: whether a vrd_double is below it. Refuses with VRD_CHANCE. */
static inline vrd_coin vrd_bool(vrd_random *g, double chance)
{
    return vrd_bool_in(g->state, g->table, chance);
}

/* low + (high - low) * vrd_double, each operation rounded once; it may equal high. Refuses with VRD_NOT_FINITE for an end, then
 * VRD_ORDER where low is not below high, then VRD_NOT_FINITE where high - low overflows. */
static inline vrd_number64 vrd_uniform(vrd_random *g, double low, double high)
{
    return vrd_uniform_in(g->state, g->table, low, high);
}

/* ---- State ---- */

/* Seeds the generator anew. The kind is kept; kinds 2 and 3 go to their default stream. */
static inline uint32_t vrd_seed(vrd_random *g, uint32_t seed)
{
    return vrd_seed_in(g->state, g->table, seed);
}

/* Renews the table and sets the position to 0; nothing on kinds other than 1. */
static inline uint32_t vrd_twist(vrd_random *g)
{
    return vrd_twist_in(g->state, g->table);
}

/* Sets the position, at most to 624; nothing on kinds other than 1. */
static inline uint32_t vrd_set_mti(vrd_random *g, uint32_t value)
{
    return vrd_set_mti_in(g->state, value);
}

/* The position; 0 on kinds other than 1. */
static inline vrd_word vrd_mti(const vrd_random *g)
{
    return vrd_mti_in(g->state);
}

/* A second generator, of kind 0 alone: the child gets the old state, and g jumps. Refuses with VRD_NO_SPLIT. */
static inline uint32_t vrd_split(vrd_random *g, vrd_random *child)
{
    return vrd_split_in(g->state, child->state);
}

/* Two generators are equal if their kinds and that kind's own parts are. */
static inline vrd_equality vrd_same(const vrd_random *g, const vrd_random *other)
{
    return vrd_same_in(g->state, g->table, other->state, other->table);
}

#ifdef __cplusplus
}
#endif

#endif
