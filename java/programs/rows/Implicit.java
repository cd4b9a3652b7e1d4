/** Each statement of the table of sites, with each of its exceptions. */
class Implicit {
    static class A {
        Object field;

        void call() { }
    }

    static Object way(int way, A none, Object[] noArray, Object[] array, int zero) {
        try {
            switch (way) {
                case 0:
                    return none.field;
                case 1:
                    none.field = array;
                    break;
                case 2:
                    return noArray[0];
                case 3:
                    noArray[0] = array;
                    break;
                case 4:
                    return noArray.length;
                case 5:
                    none.call();
                    break;
                default:
                    return more(way, array, zero);
            }
        } catch (RuntimeException e) {
            return e;
        }
        return null;
    }

    static Object more(int way, Object[] array, int zero) {
        switch (way) {
            case 6:
                throw (RuntimeException) array[1];
            case 7:
                synchronized (array[1]) {
                    return array;
                }
            case 8:
                return array[2];
            case 9:
                array[-1] = array;
                return null;
            case 10:
                array[0] = new A();
                return null;
            default:
                return last(way, array, zero);
        }
    }

    static Object last(int way, Object[] array, int zero) {
        switch (way) {
            case 11:
                return new Object[zero - 1];
            case 12:
                return new int[zero + 1][zero - 1];
            case 13:
                return (A) array[0];
            case 14:
                return 1 / zero == 0 ? array : null;
            default:
                return 1L % zero == 0 ? array : null;
        }
    }

    public static void main(String[] words) {
        String[] array = {"text", null};
        for (int way = 0; way < 16; way++) {
            Object thrown = way(way, null, null, array, 0);
        }
    }
}
