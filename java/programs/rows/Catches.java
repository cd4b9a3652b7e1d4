/** Which handler catches: the order, the class, the range, and what a handler throws again. */
class Catches {
    static class Low extends RuntimeException {
        private static final long serialVersionUID = 1;

        Low(String text) {
            super(text);
        }
    }

    static class Lower extends Low {
        private static final long serialVersionUID = 1;

        Lower() {
            super("lower");
        }
    }

    static void raise(int way) {
        switch (way) {
            case 0:
                throw new Low("low");
            case 1:
                throw new Lower();
            case 2:
                throw new IllegalArgumentException();
            default:
        }
    }

    static Object caught(int way) {
        try {
            try {
                raise(way);
                return "none";
            } catch (Lower e) {
                return e;
            } catch (Low e) {
                throw new IllegalStateException(e.getMessage(), e);
            }
        } catch (IllegalStateException e) {
            return e.getCause();
        } catch (RuntimeException e) {
            RuntimeException kept = e;
            return kept;
        }
    }

    public static void main(String[] words) {
        Object[] all = new Object[4];
        for (int way = 0; way < all.length; way++) {
            all[way] = caught(way);
        }
        Object first = all[0];
        Object last = all[3];
        try {
            throw (RuntimeException) all[1];
        } catch (Low | IllegalArgumentException e) {
            last = e.getMessage();
        }
    }
}
