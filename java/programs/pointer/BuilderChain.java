/** A builder that gives back itself. */
class BuilderChain {
    static class Builder {
        private Object first;
        private Object second;

        Builder first(Object o) {
            first = o;
            return this;
        }

        Builder second(Object o) {
            second = o;
            return this;
        }
    }

    public static void main(String[] words) {
        Builder b = new Builder().first("a").second(words);
        Object o = b.first;
        Object q = b.second;
    }
}
