/** A call by an interface. */
class InterfaceCall {
    interface Get {
        Object get();
    }

    static class One implements Get {
        public Object get() {
            return "one";
        }
    }

    static class Two implements Get {
        public Object get() {
            return this;
        }
    }

    public static void main(String[] words) {
        Get[] all = {new One(), new Two()};
        for (Get each : all) {
            Object o = each.get();
        }
    }
}
