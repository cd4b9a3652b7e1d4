/** Arguments that stand in an array. */
class VariableArguments {
    static Object last(Object... all) {
        return all.length == 0 ? null : all[all.length - 1];
    }

    public static void main(String[] words) {
        Object a = last();
        Object b = last("a", words);
        Object c = last((Object[]) words);
    }
}
