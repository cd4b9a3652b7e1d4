package java.lang;

import boomer.support.Keeps;

@Keeps(value = "nothing; calls of its methods are refused", covers = "runs")
public final class Class<T> {
    private Class() { }
}
