/** An object that calls back. */
class Observer {
    interface Heard {
        void hear(Object o);
    }

    static class Says {
        private Heard by;

        void say(Object o) {
            by.hear(o);
        }
    }

    static Object last;

    public static void main(String[] words) {
        Says says = new Says();
        says.by = o -> last = o;
        says.say("a");
        Object a = last;
        says.say(says);
        Object b = last;
    }
}
