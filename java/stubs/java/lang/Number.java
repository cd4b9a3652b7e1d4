package java.lang;

import boomer.support.Keeps;

@Keeps(value = "nothing", covers = "runs")
public abstract class Number implements java.io.Serializable {
    public Number() { }

    public abstract int intValue();

    public abstract long longValue();

    public abstract float floatValue();

    public abstract double doubleValue();

    public byte byteValue() {
        return 0;
    }

    public short shortValue() {
        return 0;
    }
}
