"""twister_week.py SEED INLETS BLANKS DAYS BUDGET: the week of kind 1, as ./week writes it, worked out from the words of CPython's own Mersenne
Twister and from the order's rule of a draw. It shares nothing with the crates."""
import random
import sys


def twister(seed):
    """CPython's generator in the state that mt19937ar.c's init_genrand gives."""
    table = [seed]
    for i in range(1, 624):
        table.append((1812433253 * (table[-1] ^ (table[-1] >> 30)) + i) % 2**32)
    words = random.Random()
    words.setstate((3, tuple(table + [624]), None))
    return words


def shuffled(words, entries, budget):
    """The list in its new order and the words used; None where the budget ends first."""
    entries = list(entries)
    used = 0
    for place in range(len(entries) - 1, 0, -1):
        bound = place + 1
        while True:
            if used == budget:
                return None, 0
            product = words.getrandbits(32) * bound
            used += 1
            if product % 2**32 >= 2**32 % bound:
                break
        other = product // 2**32
        entries[place], entries[other] = entries[other], entries[place]
    return entries, used


def main():
    seed, inlets, blanks, days, budget = map(int, sys.argv[1:])
    print(f"kind 1 (MersenneTwister), seed {seed}, inlets {inlets}, blanks a day {blanks}, days {days}, budget a draw {budget} words")
    words = twister(seed)
    width = max(len(str(inlets)), 2)
    total = 0
    planned = 0
    for day in range(1, days + 1):
        date = f"day {day:>{len(str(days))}}:"
        plan, used = shuffled(words, [0] * blanks + list(range(1, inlets + 1)), budget)
        if plan is None:
            print(f"{date} refused with 8 (BUDGET): the draws don't finish within the budget of {budget} words")
            break
        slots = " ".join(f"{x or '--':>{width}}" for x in plan)
        print(f"{date} {slots}   {used} words")
        total += used
        planned += 1
    print(f"total: {total} words, days planned: {planned}")


main()
