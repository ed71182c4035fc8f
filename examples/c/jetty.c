/* A unit on a jetty, once with each kind of generator: which of 40 inlets opens next, where the blanks go, and a draw that is
 * refused because its budget is too small. A seed of 32 bits may be given; without one it is 42. In the root of the repository:
 *
 *     tools/archive vrd_ffi
 *     cc -std=c11 -Wall -Wextra -Wpedantic -Werror -I include examples/c/jetty.c target/staticlib/libvrd_ffi.a -o jetty
 */
#include "vrd.h"

#include <inttypes.h>
#include <stdio.h>

/* The most words that one draw may look at. */
#define BUDGET 100

#define BOTTLES 10

static void seed_unit(vrd_random *unit, uint32_t kind, uint32_t seed)
{
    switch (kind) {
    case VRD_XOSHIRO256PLUSPLUS:
        vrd_xoshiro_with_seed(unit, seed);
        break;
    case VRD_MERSENNE_TWISTER:
        vrd_mersenne_twister_with_seed(unit, seed);
        break;
    case VRD_PCG32:
        vrd_pcg32_with_seed(unit, seed);
        break;
    default:
        vrd_pcg64_with_seed(unit, (vrd_wide){.high = 0, .low = seed});
    }
}

static void open_inlets(vrd_random *unit)
{
    for (int opening = 1; opening <= 3; opening++) {
        vrd_number inlet = vrd_bounded(unit, 40, BUDGET);
        printf("  opening %d: refusal %" PRIu32 ", inlet %" PRIu64 ", words %" PRIu32 "\n", opening, inlet.refusal, inlet.value,
               inlet.used);
    }
}

static void place_blanks(vrd_random *unit)
{
    uint32_t bottles[BOTTLES];
    for (uint32_t i = 0; i < BOTTLES; i++) {
        bottles[i] = i + 1;
    }
    /* Nine draws need nine words at least: with eight the list and the generator stay. */
    vrd_number order = vrd_shuffle(unit, bottles, BOTTLES, BOTTLES - 2);
    printf("  shuffle with 8 words: refusal %" PRIu32 ", first bottle %" PRIu32 "\n", order.refusal, bottles[0]);
    order = vrd_shuffle(unit, bottles, BOTTLES, BUDGET);
    printf("  shuffle: refusal %" PRIu32 ", words %" PRIu32 ", bottles", order.refusal, order.used);
    for (int i = 0; i < BOTTLES; i++) {
        printf(" %" PRIu32, bottles[i]);
    }
    vrd_number part = vrd_rand_slice(unit, bottles, BOTTLES, 3, BUDGET);
    vrd_choice spare = vrd_choose(unit, bottles, BOTTLES, BUDGET);
    printf("\n  blanks from place %" PRIu64 ", spare bottle %" PRIu64 " at place %" PRIu64 "\n", part.value, spare.value, spare.place);
}

static void other_draws(vrd_random *unit)
{
    vrd_integer drift = vrd_int(unit, -5, 5, BUDGET);
    vrd_number letter = vrd_char(unit, BUDGET);
    vrd_coin blank = vrd_bool(unit, 0.25);
    vrd_number64 wait = vrd_uniform(unit, 1.5, 60.0);
    printf("  drift %" PRId32 ", letter %c, blank %s, wait %.17f\n", drift.value, (char)letter.value, blank.value ? "yes" : "no",
           wait.value);
    uint8_t bytes[5];
    vrd_fill_bytes(unit, bytes, sizeof bytes);
    printf("  bytes");
    for (size_t i = 0; i < sizeof bytes; i++) {
        printf(" %02x", bytes[i]);
    }
    printf(", then %016" PRIx64 "\n", vrd_u64(unit).value);
}

/* The number that the text is, if it is one of 32 bits: digits and nothing else. */
static bool read_seed(const char *text, uint32_t *seed)
{
    uint64_t number = 0;
    const char *at = text;
    for (; *at >= '0' && *at <= '9' && number <= UINT32_MAX; at++) {
        number = 10 * number + (uint64_t)(*at - '0');
    }
    *seed = (uint32_t)number;
    return at != text && *at == '\0' && number <= UINT32_MAX;
}

int main(int count, char **arguments)
{
    static const char *const names[] = {"Xoshiro256++", "Mersenne Twister", "Pcg32", "Pcg64"};
    uint32_t seed = 42;
    if (count > 2 || (count == 2 && !read_seed(arguments[1], &seed))) {
        fprintf(stderr, "usage: jetty [SEED], a whole number from 0 to %" PRIu32 "\n", UINT32_MAX);
        return 2;
    }
    for (uint32_t kind = VRD_XOSHIRO256PLUSPLUS; kind <= VRD_PCG64; kind++) {
        vrd_random unit, child;
        seed_unit(&unit, kind, seed);
        printf("%s\n", names[kind]);
        open_inlets(&unit);
        place_blanks(&unit);
        other_draws(&unit);
        uint32_t below = vrd_bounded(&unit, 0, BUDGET).refusal;
        printf("  below 0: refusal %" PRIu32 "; split: refusal %" PRIu32 "\n", below, vrd_split(&unit, &child));
    }
    return 0;
}
