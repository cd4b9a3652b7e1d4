package java.lang;

import boomer.support.Keeps;

@Keeps(value = "nothing", covers = "runs")
public class NullPointerException extends RuntimeException {
    public NullPointerException() { }

    public NullPointerException(String message) {
        super(message);
    }
}
