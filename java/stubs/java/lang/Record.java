package java.lang;

import boomer.support.Keeps;

@Keeps(value = "nothing", covers = "runs")
public abstract class Record {
    protected Record() { }

    public abstract boolean equals(Object other);

    public abstract int hashCode();

    public abstract String toString();
}
