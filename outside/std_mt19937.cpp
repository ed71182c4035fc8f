// Words of C++'s std::mt19937, a line for each: a name, then the words in decimal. Names as in checks.txt.
#include <cstdint>
#include <cstdio>
#include <random>
#include <sstream>
#include <string>

// Drawn one by one: discard() of libstdc++ counts the words left in the table, which fails for a position above 624.
static std::uint32_t nth(std::mt19937 g, unsigned n) {
    for (unsigned k = 1; k < n; k++) g();
    return static_cast<std::uint32_t>(g());
}

// Words 1 to 10, the 1000th and the 10000th.
static void sample(const std::string& name, const std::mt19937& start) {
    std::printf("std.%s", name.c_str());
    std::mt19937 g = start;
    for (int k = 0; k < 10; k++) std::printf(" %u", static_cast<std::uint32_t>(g()));
    std::printf(" %u %u\n", nth(start, 1000), nth(start, 10000));
}

// The generator read in from a table and a position, as operator>> takes them.
static std::mt19937 from_parts(const std::string& table, int position) {
    std::istringstream text(table + " " + std::to_string(position));
    std::mt19937 g;
    text >> g;
    return g;
}

int main() {
    for (std::uint32_t seed : {0u, 1u, 42u, 5489u, 4294967295u})
        sample("mt.seed-" + std::to_string(seed), std::mt19937(seed));
    sample("mt.default", std::mt19937());

    // What operator<< writes is the table and then the position; the position is cut off here.
    std::ostringstream whole;
    whole << std::mt19937(42);
    std::string table = whole.str();
    table = table.substr(0, table.find_last_of(' '));
    for (int position : {0, 300, 623, 624, 1000})
        sample("mt.table-42-position-" + std::to_string(position), from_parts(table, position));

    std::string zeros = "0";
    for (int k = 1; k < 624; k++) zeros += " 0";
    sample("mt.zeros", from_parts(zeros, 624));

    std::mt19937_64 other(5489);
    std::printf("std.mt64-5489");
    for (int k = 0; k < 10; k++) std::printf(" %llu", static_cast<unsigned long long>(other()));
    std::printf("\n");
    return 0;
}
