# The table that mt19937ar.c's init_by_array makes from {0x123, 0x234, 0x345, 0x456}, and its words, from Python's random,
# which seeds itself from a whole number by that function, 32 bits of the number to an entry. Names as in checks.txt.
import random

KEY = [0x123, 0x234, 0x345, 0x456]

random.seed(sum(entry << (32 * place) for place, entry in enumerate(KEY)))
*table, position = random.getstate()[1]
if position != 624:
    raise SystemExit("the position after seeding is %d, expected 624" % position)
print("python.mt.table", *table)
words = [random.getrandbits(32) for _ in range(1000)]
print("python.mt.by-array", *words)
