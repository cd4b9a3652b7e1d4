/** Enumerations: their constants, with and without bodies, and switches over them. */
class Enums {
    enum Colour {
        RED("r"),
        GREEN("g") {
            @Override
            Object shade() {
                return text;
            }
        };

        static final Object COUNT = values();
        final String text;

        Colour(String text) {
            this.text = text;
        }

        Object shade() {
            return this;
        }
    }

    static Object of(Colour colour) {
        switch (colour) {
            case RED:
                return "is red";
            case GREEN:
                return colour.shade();
            default:
                return null;
        }
    }

    public static void main(String[] words) {
        Object red = of(Colour.RED);
        Object green = of(Colour.GREEN);
        Colour[] all = Colour.values();
        Object first = all[0];
        Object second = all[1].shade();
        Object name = Colour.GREEN.name();
        all[0] = all[1];
        Object changed = all[0];
        Object still = Colour.values()[0];
        int order = Colour.RED.compareTo(Colour.GREEN);
    }
}
