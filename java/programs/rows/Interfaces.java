/** Methods of interfaces: default, static, private, and the most specific of several. */
class Interfaces {
    interface Top {
        default Object name() {
            return "top";
        }

        Object given();

        static Object made() {
            return new Object();
        }
    }

    interface Left extends Top {
        @Override
        default Object name() {
            return hidden(Top.super.name());
        }

        private Object hidden(Object o) {
            return o == null ? this : "left";
        }
    }

    interface Right extends Top { }

    static class Both implements Right, Left {
        public Object given() {
            return name();
        }
    }

    static class Own extends Both {
        @Override
        public Object name() {
            return Top.made();
        }
    }

    enum Kind implements Right {
        ONE;

        public Object given() {
            return this;
        }
    }

    static Object ask(Top top) {
        Object given = top.given();
        return top.name();
    }

    public static void main(String[] words) {
        Object a = ask(new Both());
        Object b = ask(new Own());
        Object c = ask(Kind.ONE);
        Left left = new Own();
        Object d = left.name();
        Object e = new Right() {
            public Object given() {
                return words;
            }
        }.given();
    }
}
