/** Bridges of generic and of covariant methods, and what they cast. */
class Bridges {
    interface Maker<T> {
        T make(T from);
    }

    static class Texts implements Maker<String> {
        @Override
        public String make(String from) {
            return from;
        }
    }

    static class Base {
        Object self() {
            return "base";
        }
    }

    static class Covariant extends Base {
        @Override
        Covariant self() {
            return this;
        }
    }

    static class Box<T extends Comparable<T>> {
        T value;

        void set(T value) {
            this.value = value;
        }
    }

    static class TextBox extends Box<String> {
        @Override
        void set(String value) {
            super.set(value == null ? "none" : value);
        }
    }

    @SuppressWarnings({"unchecked", "rawtypes"})
    public static void main(String[] words) {
        Maker<String> maker = new Texts();
        Object a = maker.make("a");
        Base base = new Covariant();
        Object b = base.self();
        Box<String> box = new TextBox();
        box.set(null);
        Object c = box.value;
        box.set("c");
        c = box.value;
        try {
            ((Maker) maker).make(base);
        } catch (ClassCastException e) {
            c = e;
        }
    }
}
