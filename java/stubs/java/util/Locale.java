package java.util;

import boomer.support.Keeps;

@Keeps(value = "nothing", covers = "runs")
public final class Locale implements Cloneable, java.io.Serializable {
    public static final Locale ENGLISH = new Locale("");
    public static final Locale US = ENGLISH;
    public static final Locale UK = ENGLISH;
    public static final Locale ROOT = ENGLISH;
    public static final Locale GERMANY = ENGLISH;
    public static final Locale FRANCE = ENGLISH;

    public Locale(String language) { }

    public Locale(String language, String country) { }

    public static Locale getDefault() {
        return ENGLISH;
    }

    public static Locale forLanguageTag(String tag) {
        return new Locale(tag);
    }
}
