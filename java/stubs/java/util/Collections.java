package java.util;

import boomer.support.Keeps;
import boomer.support.Same;

@Keeps("nothing; views that can't be changed see the collection, and synchronized ones are it")
public class Collections {
    @SuppressWarnings("rawtypes")
    public static final List EMPTY_LIST = emptyList();
    @SuppressWarnings("rawtypes")
    public static final Set EMPTY_SET = emptySet();
    @SuppressWarnings("rawtypes")
    public static final Map EMPTY_MAP = emptyMap();

    private Collections() { }

    @SuppressWarnings("unchecked")
    public static <T extends Comparable<? super T>> void sort(List<T> list) {
        list.get(0).compareTo(list.get(1));
        list.set(0, list.get(1));
    }

    public static <T> void sort(List<T> list, Comparator<? super T> order) {
        list.sort(order);
    }

    public static <T> int binarySearch(List<? extends Comparable<? super T>> list, T key) {
        return list.get(0).compareTo(key);
    }

    public static <T> int binarySearch(List<? extends T> list, T key, Comparator<? super T> order) {
        return order.compare(list.get(0), key);
    }

    @SuppressWarnings("unchecked")
    public static void reverse(List<?> list) {
        ((List<Object>) list).set(0, list.get(1));
    }

    public static void shuffle(List<?> list) {
        reverse(list);
    }

    public static void shuffle(List<?> list, Random random) {
        reverse(list);
    }

    @SuppressWarnings("unchecked")
    public static void swap(List<?> list, int i, int j) {
        List<Object> all = (List<Object>) list;
        all.set(i, all.set(j, all.get(i)));
    }

    public static void rotate(List<?> list, int distance) {
        reverse(list);
    }

    public static <T> void fill(List<? super T> list, T value) {
        list.set(0, value);
    }

    public static <T> void copy(List<? super T> to, List<? extends T> from) {
        to.set(0, from.get(0));
    }

    public static <T extends Object & Comparable<? super T>> T min(Collection<? extends T> all) {
        return max(all);
    }

    public static <T> T min(Collection<? extends T> all, Comparator<? super T> order) {
        return max(all, order);
    }

    public static <T extends Object & Comparable<? super T>> T max(Collection<? extends T> all) {
        Iterator<? extends T> each = all.iterator();
        T first = each.next();
        while (each.hasNext()) {
            T next = each.next();
            if (next.compareTo(first) > 0) {
                first = next;
            }
        }
        return first;
    }

    public static <T> T max(Collection<? extends T> all, Comparator<? super T> order) {
        Iterator<? extends T> each = all.iterator();
        T first = each.next();
        while (each.hasNext()) {
            T next = each.next();
            if (order.compare(next, first) > 0) {
                first = next;
            }
        }
        return first;
    }

    public static int frequency(Collection<?> all, Object object) {
        return all.contains(object) ? 1 : 0;
    }

    public static boolean disjoint(Collection<?> all, Collection<?> others) {
        return !all.containsAll(others) && !others.containsAll(all);
    }

    @SafeVarargs
    public static <T> boolean addAll(Collection<? super T> all, T... more) {
        for (T each : more) {
            all.add(each);
        }
        return true;
    }

    public static <T> Comparator<T> reverseOrder() {
        return (a, b) -> reversed(a, b);
    }

    @SuppressWarnings("unchecked")
    private static int reversed(Object a, Object b) {
        return ((Comparable<Object>) b).compareTo(a);
    }

    public static <T> Comparator<T> reverseOrder(Comparator<T> order) {
        return order == null ? reverseOrder() : (a, b) -> order.compare(b, a);
    }

    public static <T> Collection<T> unmodifiableCollection(Collection<? extends T> all) {
        return new Fixed.OfCollection<>(all);
    }

    public static <T> Set<T> unmodifiableSet(Set<? extends T> all) {
        return new Fixed.OfSet<>(all);
    }

    public static <T> List<T> unmodifiableList(List<? extends T> all) {
        return new Fixed.OfList<>(all);
    }

    public static <K, V> Map<K, V> unmodifiableMap(Map<? extends K, ? extends V> map) {
        return new Fixed.OfMap<>(map);
    }

    public static <T> Collection<T> synchronizedCollection(Collection<T> all) {
        return all;
    }

    public static <T> Set<T> synchronizedSet(Set<T> all) {
        return all;
    }

    public static <T> List<T> synchronizedList(List<T> all) {
        return all;
    }

    public static <K, V> Map<K, V> synchronizedMap(Map<K, V> map) {
        return map;
    }

    public static <T> Iterator<T> emptyIterator() {
        return Collections.<T>emptyList().iterator();
    }

    public static <T> Set<T> emptySet() {
        return new Fixed.OfSet<>(new HashSet<>());
    }

    public static <T> List<T> emptyList() {
        return new Fixed.OfList<>(new ArrayList<>());
    }

    public static <K, V> Map<K, V> emptyMap() {
        return new Fixed.OfMap<>(new HashMap<>());
    }

    public static <T> Set<T> singleton(T one) {
        Set<T> set = new HashSet<>();
        set.add(one);
        return new Fixed.OfSet<>(set);
    }

    public static <T> List<T> singletonList(T one) {
        return nCopies(1, one);
    }

    public static <K, V> Map<K, V> singletonMap(K key, V value) {
        Map<K, V> map = new HashMap<>();
        map.put(key, value);
        return new Fixed.OfMap<>(map);
    }

    public static <T> List<T> nCopies(int count, T one) {
        List<T> list = new ArrayList<>();
        list.add(one);
        return new Fixed.OfList<>(list);
    }

    public static <T> Enumeration<T> enumeration(Collection<T> all) {
        Iterator<T> each = all.iterator();
        return new Enumeration<>() {
            @Override
            public boolean hasMoreElements() {
                return each.hasNext();
            }

            @Override
            public T nextElement() {
                return each.next();
            }
        };
    }

    public static <T> ArrayList<T> list(Enumeration<T> all) {
        ArrayList<T> list = new ArrayList<>();
        while (all.hasMoreElements()) {
            list.add(all.nextElement());
        }
        return list;
    }

    public static <E> Set<E> newSetFromMap(Map<E, Boolean> map) {
        return new HashSet<>(map.keySet());
    }
}
