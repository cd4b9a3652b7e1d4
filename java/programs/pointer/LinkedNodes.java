/** A list of nodes, written by hand. */
class LinkedNodes {
    static class Node {
        final Object value;
        final Node next;

        Node(Object value, Node next) {
            this.value = value;
            this.next = next;
        }
    }

    public static void main(String[] words) {
        Node n = new Node("a", new Node(words, null));
        for (Node each = n; each != null; each = each.next) {
            Object o = each.value;
        }
    }
}
