package java.util;

import boomer.support.Keeps;

@Keeps("nothing; all goes by the iterator")
public abstract class AbstractSet<E> extends AbstractCollection<E> implements Set<E> {
    protected AbstractSet() { }
}
