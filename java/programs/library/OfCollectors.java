import java.util.ArrayList;
import java.util.List;
import java.util.Map;
import java.util.stream.Collectors;
import java.util.stream.IntStream;

/** Collectors, and streams of numbers. */
class OfCollectors {
    static class A {
        final String name;

        A(String name) {
            this.name = name;
        }

        String name() {
            return name;
        }
    }

    public static void main(String[] args) {
        List<A> list = new ArrayList<>();
        list.add(new A("x"));
        list.add(new A("y"));
        List<A> some = list.stream().filter(a -> a != null).collect(Collectors.toList());
        A first = some.get(0);
        Map<String, List<A>> groups = list.stream().collect(Collectors.groupingBy(A::name));
        A member = groups.get("x").get(0);
        Map<String, A> byName = list.stream().collect(Collectors.toMap(a -> a.name, a -> a));
        A named = byName.get("x");
        List<A> made = IntStream.range(0, 2).mapToObj(i -> new A("z")).toList();
        A inMade = made.get(0);
        String joined = list.stream().map(A::name).collect(Collectors.joining(", "));
    }
}
