import java.lang.ref.PhantomReference;
import java.lang.ref.ReferenceQueue;
import java.lang.ref.SoftReference;
import java.lang.ref.WeakReference;
import java.util.ArrayList;
import java.util.WeakHashMap;

/** Holds references of each kind to objects that nothing else reaches, and then rests. */
public class Weak {
    static final class Held {
        long number = 7;
        Held next;
    }

    static final class Softly {
        long number = 8;
    }

    static final class Phantom {
        long number = 9;
    }

    static final ArrayList<Object> KEPT = new ArrayList<>();
    static final ReferenceQueue<Object> QUEUE = new ReferenceQueue<>();

    public static void main(String[] words) throws InterruptedException {
        for (int i = 0; i < 1000; i++) {
            Held held = new Held();
            held.next = new Held();
            KEPT.add(new WeakReference<>(held));
        }
        for (int i = 0; i < 100; i++) {
            KEPT.add(new SoftReference<>(new Softly()));
            KEPT.add(new PhantomReference<Object>(new Phantom(), QUEUE));
        }
        WeakHashMap<Object, Object> map = new WeakHashMap<>();
        for (int i = 0; i < 200; i++) {
            map.put(new Held(), i);
        }
        KEPT.add(map);
        System.out.println("at rest");
        Thread.sleep(3_600_000);
    }
}
