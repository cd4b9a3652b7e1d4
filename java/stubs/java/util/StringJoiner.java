package java.util;

import boomer.support.Keeps;

@Keeps("nothing; what is joined is a new text")
public final class StringJoiner {
    public StringJoiner(CharSequence between) { }

    public StringJoiner(CharSequence between, CharSequence before, CharSequence behind) { }

    public StringJoiner add(CharSequence part) {
        String.valueOf((Object) part);
        return this;
    }

    public StringJoiner merge(StringJoiner other) {
        return this;
    }

    public StringJoiner setEmptyValue(CharSequence text) {
        String.valueOf((Object) text);
        return this;
    }

    public int length() {
        return 0;
    }

    public String toString() {
        return new String();
    }
}
