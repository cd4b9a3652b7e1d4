/** Inner, local and anonymous classes, and what they see of those around them. */
class Inner {
    private Object secret = "secret";

    class Member {
        Object own = secret;

        class Deep {
            Object both() {
                return secret == own ? Inner.this : Member.this;
            }
        }

        void change(Object o) {
            secret = o;
        }
    }

    Object local(Object captured) {
        class Local {
            Object seen() {
                return captured == null ? secret : captured;
            }
        }
        return new Local().seen();
    }

    interface Get {
        Object get();
    }

    Get anonymous(Object first) {
        return new Get() {
            private final Object kept = first;

            public Object get() {
                return kept == null ? Inner.this : kept;
            }
        };
    }

    public static void main(String[] words) {
        Inner inner = new Inner();
        Member member = inner.new Member();
        Member.Deep deep = member.new Deep();
        Object a = deep.both();
        member.change("changed");
        Object b = deep.both();
        Object c = inner.local(null);
        Object d = inner.local(words);
        Object e = inner.anonymous(d).get();
        Object f = inner.anonymous(null).get();
    }
}
