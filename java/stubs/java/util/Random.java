package java.util;

import boomer.support.Keeps;

@Keeps(value = "nothing", covers = "runs")
public class Random implements java.util.random.RandomGenerator, java.io.Serializable {
    public Random() { }

    public Random(long seed) { }

    public void setSeed(long seed) { }

    protected int next(int bits) {
        return bits;
    }

    public int nextInt() {
        return next(1);
    }

    public int nextInt(int bound) {
        if (bound <= 0) {
            throw new IllegalArgumentException();
        }
        return next(1);
    }

    public int nextInt(int from, int to) {
        return nextInt(to);
    }

    public long nextLong() {
        return next(1);
    }

    public boolean nextBoolean() {
        return next(1) == 0;
    }

    public float nextFloat() {
        return next(1);
    }

    public double nextDouble() {
        return next(1);
    }

    public double nextGaussian() {
        return next(1);
    }

    public void nextBytes(byte[] all) { }
}
