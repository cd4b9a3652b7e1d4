import java.util.List;
import java.util.stream.Collectors;

/** Streams. */
class OfStreams {
    static class A {
        Object f;
    }

    public static void main(String[] words) {
        A a = new A();
        A b = new A();
        List<A> list = List.of(a, b);
        A first = list.stream().filter(x -> x != b).findFirst().orElse(null);
        List<Object> mapped = list.stream().map(x -> x.f == null ? words : x.f).collect(Collectors.toList());
        Object got = mapped.get(0);
        list.stream().forEach(x -> x.f = b);
        Object o = a.f;
    }
}
