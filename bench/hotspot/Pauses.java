import java.util.Random;

/**
 * Times full collections of HotSpot, of heaps like those of `pcompact generate`: sizes, neighbours that share their fate, and where
 * references lead are drawn alike. An object is an array, of references or of numbers.
 *
 * <p>usage: java .. Pauses.java MIB ROUNDS -- prints the nanoseconds of each round's System.gc(), over objects of so many MiB, of
 * which half live. They are new each time, and the last round's are dead.
 */
public class Pauses {
    /** What the header of an array takes, in words of 8 bytes. */
    static final int HEADER = 2;

    static Object[] roots;
    static Object dead;

    public static void main(String[] words) {
        long heap = Long.parseLong(words[0]) << 17;
        int rounds = Integer.parseInt(words[1]);
        Random random = new Random(1);
        for (int round = 0; round < rounds; round++) {
            roots = null;
            fill(heap, random);
            dead = null;
            long begun = System.nanoTime();
            System.gc();
            System.out.println(System.nanoTime() - begun);
        }
    }

    static void fill(long heap, Random random) {
        Object[] live = new Object[(int) (heap / 8)];
        int count = 0;
        boolean lives = true;
        for (long left = heap; left > HEADER; ) {
            int size = HEADER + 1 + random.nextInt(4 << Math.min(Integer.numberOfTrailingZeros(random.nextInt()), 10));
            left -= size;
            Object it = random.nextInt(4) == 0 ? new Object[size - HEADER] : new long[size - HEADER];
            if (random.nextInt(4) == 0) {
                lives = random.nextBoolean();
            }
            if (lives && count < live.length) {
                live[count++] = it;
            } else {
                dead = it;
            }
        }
        connect(live, count, random);
    }

    /** A quarter of the references are null, half lead to a neighbour, the rest anywhere. What none leads to is a root. */
    static void connect(Object[] live, int count, Random random) {
        boolean[] referred = new boolean[count];
        for (int i = 0; i < count; i++) {
            if (live[i] instanceof Object[] fields) {
                for (int f = 0; f < fields.length; f++) {
                    int kind = random.nextInt(4);
                    if (kind > 0) {
                        int target = kind == 1 ? random.nextInt(count) : Math.floorMod(i + random.nextInt(128) - 64, count);
                        fields[f] = live[target];
                        referred[target] = true;
                    }
                }
            }
        }
        int unreferred = 0;
        for (int i = 0; i < count; i++) {
            if (!referred[i]) {
                live[unreferred++] = live[i];
            }
        }
        roots = java.util.Arrays.copyOf(live, unreferred);
    }
}
