/** A generic box. */
class GenericBox {
    static class Box<T> {
        private T value;

        Box<T> with(T value) {
            this.value = value;
            return this;
        }
    }

    public static void main(String[] words) {
        String a = new Box<String>().with("a").value;
        Object[] b = new Box<Object[]>().with(words).value;
    }
}
