// Words of O'Neill's C++ library (pcg32, pcg64), a line for each: a name, then the words in hexadecimal; inner numbers in
// decimal. Names as in checks.txt.
#include <cstdio>
#include <pcg_random.hpp>
#include <sstream>
#include <string>

using pcg_extras::pcg128_t;

static pcg128_t wide(unsigned long long high, unsigned long long low) { return pcg128_t(high) << 64 | pcg128_t(low); }

static std::string decimal(pcg128_t number) {
    std::string digits;
    do {
        digits.insert(digits.begin(), char('0' + int(number % 10)));
        number /= 10;
    } while (number != 0);
    return digits;
}

// The library's class with its inner numbers open: the words are still drawn by its own code.
template <typename G>
struct Open : G {
    using G::G;
    Open(typename G::state_type state, typename G::state_type increment, bool) {
        this->state_ = state;
        this->inc_ = increment;
    }
    std::string increment_in_use() const { return decimal(this->increment()); }
    std::string internals() const {
        return decimal(this->multiplier()) + " " + increment_in_use() + " " + decimal(this->state_);
    }
};

using Small = Open<pcg32>;
using Large = Open<pcg64>;

// The first 6 words.
template <typename G>
static void sample(const std::string& name, G g) {
    std::printf("pcg.%s", name.c_str());
    for (int k = 0; k < 6; k++) std::printf(" %llx", static_cast<unsigned long long>(g()));
    std::printf("\n");
}

static void inner(const std::string& name, const std::string& numbers) {
    std::printf("pcg.%s %s\n", name.c_str(), numbers.c_str());
}

// pcg32 with this increment and state as operator>> takes them: multiplier, increment, state.
// (For pcg64 that operator does not compile with g++ 12, which finds no >> for its 128-bit numbers.)
static pcg32 read_in(const std::string& increment, const std::string& state) {
    pcg32 g;
    std::istringstream text("6364136223846793005 " + increment + " " + state);
    text >> g;
    return g;
}

int main() {
    sample("pcg32.42-54", pcg32(42u, 54u));
    sample("pcg32.42-54-top-bit", pcg32(42u, 54u | 1ULL << 63));
    sample("pcg32.42", pcg32(42u));
    sample("pcg32.42-her-increment-as-stream", pcg32(42u, 1442695040888963407ULL));
    sample("pcg32.state-7-increment-108", Small(7, 108, true));
    sample("pcg32.read-in-7-108", read_in("108", "7"));
    inner("pcg32.multiplier-increment-state", Small(42u, 54u).internals());
    inner("pcg32.default-increment", Small(42u).increment_in_use());

    sample("pcg64.42-54", pcg64(42u, 54u));
    sample("pcg64.42", pcg64(42u));
    sample("pcg64.42-her-increment-as-stream", pcg64(42u, wide(6364136223846793005ULL, 1442695040888963407ULL)));
    sample("pcg64.state-7-increment-108", Large(7, 108, true));
    inner("pcg64.multiplier-increment-state", Large(42u, 54u).internals());
    inner("pcg64.default-increment", Large(42u).increment_in_use());
    return 0;
}
