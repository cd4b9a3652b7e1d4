package java.lang;

import boomer.support.Keeps;

@Keeps("nothing; a copy by clone is the object itself, and the class is any that the text has as a constant")
public class Object {
    public Object() { }

    /** Closing a text puts its class constants in front. That of Object stands for all classes that have none. */
    public final Class<?> getClass() {
        return Object.class;
    }

    public int hashCode() {
        return 0;
    }

    public boolean equals(Object other) {
        return this == other;
    }

    protected Object clone() throws CloneNotSupportedException {
        if (this instanceof Cloneable) {
            return this;
        }
        throw new CloneNotSupportedException();
    }

    public String toString() {
        return new String();
    }

    public final void notify() { }

    public final void notifyAll() { }

    public final void wait() throws InterruptedException { }

    public final void wait(long millis) throws InterruptedException { }

    public final void wait(long millis, int nanos) throws InterruptedException { }
}
