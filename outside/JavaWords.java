// Words of Java's Xoshiro256PlusPlus and SplittableRandom, a line for each: a name, then the words in hexadecimal.
// Names as in checks.txt. The generator's package is not open to programs, so java is run with
// --add-modules jdk.random --add-exports jdk.random/jdk.random=ALL-UNNAMED.
import java.util.SplittableRandom;
import jdk.random.Xoshiro256PlusPlus;

final class JavaWords {
    public static void main(String[] args) {
        sample("xoshiro.state-1-2-3-4", new Xoshiro256PlusPlus(1, 2, 3, 4));
        sample("xoshiro.state-1-2-3-4-jump", jumped(new Xoshiro256PlusPlus(1, 2, 3, 4)));
        sample("xoshiro.seed-42", seeded(42));
        sample("xoshiro.seed-42-jump", jumped(seeded(42)));
        sample("xoshiro.zeros", new Xoshiro256PlusPlus(0, 0, 0, 0));
        Xoshiro256PlusPlus halves = new Xoshiro256PlusPlus(1, 2, 3, 4);
        StringBuilder line = new StringBuilder("java.xoshiro.state-1-2-3-4-u32");
        for (int k = 0; k < 10; k++) {
            line.append(' ').append(Integer.toHexString(halves.nextInt()));
        }
        System.out.println(line);
        for (long seed : new long[] {0L, 42L, 1234567L, 0xBAD1DEAA5BD1CAFEL}) {
            SplittableRandom mix = new SplittableRandom(seed);
            line = new StringBuilder("java.splitmix64." + Long.toUnsignedString(seed));
            for (int k = 0; k < 4; k++) {
                line.append(' ').append(Long.toHexString(mix.nextLong()));
            }
            System.out.println(line);
        }
    }

    // The first 10 words.
    private static void sample(String name, Xoshiro256PlusPlus g) {
        StringBuilder line = new StringBuilder("java." + name);
        for (int k = 0; k < 10; k++) {
            line.append(' ').append(Long.toHexString(g.nextLong()));
        }
        System.out.println(line);
    }

    // Four outputs of SplitMix64 as the state, as the authors advise.
    private static Xoshiro256PlusPlus seeded(long seed) {
        SplittableRandom mix = new SplittableRandom(seed);
        return new Xoshiro256PlusPlus(mix.nextLong(), mix.nextLong(), mix.nextLong(), mix.nextLong());
    }

    private static Xoshiro256PlusPlus jumped(Xoshiro256PlusPlus g) {
        g.jump();
        return g;
    }
}
