/** Calls of a method by itself, and of two by each other. */
class Recursion {
    static class Node {
        Node next;
        Object value;

        Node(Node next, Object value) {
            this.next = next;
            this.value = value;
        }

        Object last() {
            return next == null ? value : next.last();
        }
    }

    static Node chain(int length, Object value) {
        return length == 0 ? null : new Node(chain(length - 1, value), value);
    }

    static boolean isEven(int n) {
        return n == 0 || isOdd(n - 1);
    }

    static boolean isOdd(int n) {
        return n != 0 && isEven(n - 1);
    }

    static Object deep(int n) {
        if (n == 0) {
            throw new IllegalStateException();
        }
        try {
            return deep(n - 1);
        } finally {
            depth = n;
        }
    }

    static int depth;

    public static void main(String[] words) {
        Node chain = chain(3, words);
        Object last = chain.last();
        Object side = isEven(3) ? chain : last;
        try {
            deep(3);
        } catch (IllegalStateException e) {
            side = e;
        }
    }
}
