// Generators that others have written, in the port's place: the XOR of n words in a row. build.rs defines WITH_PCG where pcg-cpp is there.
#include <cstdint>
#include <random>

namespace {
template <typename Generator> uint64_t words(Generator generator, uint64_t n)
{
    uint64_t word = 0;
    for (uint64_t i = 0; i < n; i++) {
        word ^= generator();
    }
    return word;
}
}

extern "C" uint64_t peer_mt19937(uint64_t seed, uint64_t n)
{
    return words(std::mt19937(static_cast<uint32_t>(seed)), n);
}

#ifdef WITH_PCG
#include <pcg_random.hpp>

// The streams are the original's defaults.
extern "C" uint64_t peer_pcg32(uint64_t seed, uint64_t n)
{
    return words(pcg32(seed, 1442695040888963407ULL), n);
}

// pcg-cpp works a word of 64 bits out of the state after the step, the original out of the one before: a step back makes them one.
extern "C" uint64_t peer_pcg64(uint64_t seed, uint64_t n)
{
    using pcg_extras::pcg128_t;
    pcg64 generator(seed, PCG_128BIT_CONSTANT(0x5851F42D4C957F2DULL, 0x14057B7EF767814FULL));
    generator.backstep(1);
    return words(generator, n);
}
#endif
