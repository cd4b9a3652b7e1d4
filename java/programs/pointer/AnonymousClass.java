/** An anonymous class and what it captures. */
class AnonymousClass {
    interface Get {
        Object get();
    }

    static Get get(Object o) {
        return new Get() {
            public Object get() {
                return o;
            }
        };
    }

    public static void main(String[] words) {
        Object a = get("a").get();
        Object b = get(words).get();
    }
}
