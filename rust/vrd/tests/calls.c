/* Every call of vrd.h once, as C and as C++: tests/c.rs holds what this prints against the crate. */
#include "vrd.h"

#include <inttypes.h>
#include <stdio.h>
#include <string.h>

#define BUDGET 100

static const uint32_t list[4] = {10, 20, 30, 40};

static void word(const char *name, vrd_word a)
{
    printf("%s %" PRIu32 " %" PRIu64 "\n", name, a.refusal, a.value);
}

static void number(const char *name, vrd_number a)
{
    printf("%s %" PRIu32 " %" PRIu64 " %" PRIu32 "\n", name, a.refusal, a.value, a.used);
}

static void integer(const char *name, vrd_integer a)
{
    printf("%s %" PRIu32 " %" PRId32 " %" PRIu32 "\n", name, a.refusal, a.value, a.used);
}

static void refusal(const char *name, uint32_t refused)
{
    printf("%s %" PRIu32 "\n", name, refused);
}

static void double_bits(const char *name, vrd_number64 a)
{
    uint64_t bits;
    memcpy(&bits, &a.value, sizeof bits);
    printf("%s %" PRIu32 " %016" PRIx64 "\n", name, a.refusal, bits);
}

static void words(vrd_random *g)
{
    word("rand", vrd_rand(g));
    word("u64", vrd_u64(g));
    printf("i64 %" PRId64 "\n", vrd_i64(g).value);
    word("pseudo", vrd_pseudo(g));
    uint8_t bytes[3];
    refusal("fill_bytes", vrd_fill_bytes(g, bytes, sizeof bytes));
    printf("bytes %d %d %d\n", bytes[0], bytes[1], bytes[2]);
}

static void draws(vrd_random *g)
{
    number("bounded", vrd_bounded(g, 3000000000u, BUDGET));
    number("bounded", vrd_bounded(g, 0, BUDGET));
    number("random_range", vrd_random_range(g, 5, 50, BUDGET));
    number("uint", vrd_uint(g, 7, 77, BUDGET));
    integer("int", vrd_int(g, -7, 77, BUDGET));
    integer("range", vrd_range(g, -77, 7, BUDGET));
    number("char", vrd_char(g, BUDGET));
    number("char", vrd_char(g, 0));
}

static void lists(vrd_random *g)
{
    vrd_choice chosen = vrd_choose(g, list, 4, BUDGET);
    printf("choose %" PRIu32 " %" PRIu64 " %" PRIu64 " %" PRIu32 "\n", chosen.refusal, chosen.place, chosen.value, chosen.used);
    number("rand_slice", vrd_rand_slice(g, list, 4, 2, BUDGET));
    number("rand_slice", vrd_rand_slice(g, list, 4, 5, BUDGET));
    uint32_t order[4];
    memcpy(order, list, sizeof list);
    number("shuffle", vrd_shuffle(g, order, 4, 2));
    number("shuffle", vrd_shuffle(g, order, 4, BUDGET));
    printf("order %" PRIu32 " %" PRIu32 " %" PRIu32 " %" PRIu32 "\n", order[0], order[1], order[2], order[3]);
}

static void floats(vrd_random *g)
{
    vrd_number32 a = vrd_float(g);
    uint32_t bits;
    memcpy(&bits, &a.value, sizeof bits);
    printf("float %" PRIu32 " %08" PRIx32 "\n", a.refusal, bits);
    double_bits("double", vrd_double(g));
    vrd_coin coin = vrd_bool(g, 0.5);
    printf("bool %" PRIu32 " %d %" PRIu32 "\n", coin.refusal, coin.value, coin.used);
    refusal("bool", vrd_bool(g, 1.5).refusal);
    double_bits("uniform", vrd_uniform(g, -1.5, 60.0));
    double_bits("uniform", vrd_uniform(g, 1.0, 1.0));
}

static void state(vrd_random *g)
{
    vrd_random child = *g;
    vrd_equality same = vrd_same(g, &child);
    printf("same %" PRIu32 " %d\n", same.refusal, same.equal);
    refusal("split", vrd_split(g, &child));
    printf("same %d\n", vrd_same(g, &child).equal);
    refusal("seed", vrd_seed(g, 7));
    refusal("twist", vrd_twist(g));
    word("mti", vrd_mti(g));
    refusal("set_mti", vrd_set_mti(g, 1000));
    word("mti", vrd_mti(g));
    word("rand", vrd_rand(g));
}

static void every_call(vrd_random g)
{
    words(&g);
    draws(&g);
    lists(&g);
    floats(&g);
    state(&g);
}

int main(void)
{
    vrd_random g;
    vrd_wide seed = {1, 2}, stream = {3, 4};
    uint8_t bytes[32];
    for (int i = 0; i < 32; i++) {
        bytes[i] = (uint8_t)(7 * i);
    }
    printf("list_limit %" PRIu64 "\n", vrd_list_limit());
    vrd_xoshiro_with_seed(&g, 42);
    every_call(g);
    vrd_mersenne_twister_with_seed(&g, 42);
    every_call(g);
    vrd_pcg32_with_seed(&g, 42);
    every_call(g);
    vrd_pcg64_with_seed(&g, seed);
    every_call(g);
    vrd_pcg32_with_stream(&g, 42, 54);
    every_call(g);
    vrd_pcg64_with_stream(&g, seed, stream);
    every_call(g);
    for (uint32_t kind = 0; kind <= 4; kind++) {
        refusal("make", vrd_make(&g, kind, bytes, kind == 2 ? 16 : 32));
        every_call(g);
    }
    refusal("make", vrd_make(&g, 0, bytes, 31));
    /* A kind that there is not. */
    g.state[0] = 4;
    number("bounded", vrd_bounded(&g, 40, BUDGET));
    return 0;
}
