import com.sun.management.HotSpotDiagnosticMXBean;
import java.lang.management.ManagementFactory;
import java.lang.ref.WeakReference;
import java.util.ArrayList;
import java.util.IdentityHashMap;
import java.util.List;

/**
 * Builds a known graph of objects, dumps its own heap, and says what must come out.
 *
 * usage: Graph FILE live|all     dumps to FILE
 *        Graph - wait            says so, and waits to be dumped
 *        Graph - fill            fills the heap, so that the machine dumps it itself
 *
 * Each line it prints is an object: its number of words in an image, the numbers of the objects to which its references lead
 * (- is null), and the bytes of its data. Objects are numbered as they are met: from the first, whose data is found once in
 * the heap, through references in their order.
 */
public class Graph {
    static final class Marker { final long mark = 0x5EED_F00D_0DD5_EED5L; Object[] all; }
    static class Base { long low; Object below; }
    static final class Sub extends Base { int high; Object above; }
    static final class Node { long value; Node next; }
    // A machine puts fields in an order of its own, so the two have one value.
    static final class Tiny { short one; char two; }

    static final Marker marker = new Marker();
    static WeakReference<Object> weak;
    static final List<byte[]> filling = new ArrayList<>();

    static Node list(int length, boolean cycle) {
        Node last = new Node();
        Node first = last;
        for (int i = 1; i < length; i++) {
            Node node = new Node();
            node.value = i;
            node.next = first;
            first = node;
        }
        last.next = cycle ? first : null;
        return first;
    }

    static void build() {
        Sub sub = new Sub();
        sub.low = -2;
        sub.high = 0x01020304;
        sub.above = sub;
        Tiny tiny = new Tiny();
        tiny.one = 0x0203;
        tiny.two = 0x0203;
        sub.below = tiny;
        Object[][] nested = {{sub, null}, {}, {tiny, sub}};
        Object target = new long[] {7, 8, 9};
        weak = new WeakReference<>(target);
        marker.all = new Object[] {sub, list(20_000, false), list(7, true), nested, new byte[] {1, 2, 3}, new int[1000],
            new double[] {1.5}, new char[] {'a', 'b'}, new boolean[9], target, null, marker, new Object(), list(1, true)};
    }

    static List<Object> references(Object object) {
        List<Object> found = new ArrayList<>();
        if (object instanceof Object[] array) {
            for (Object element : array) found.add(element);
        } else if (object instanceof Marker marker) {
            found.add(marker.all);
        } else if (object instanceof Sub sub) {
            found.add(sub.above);
            found.add(sub.below);
        } else if (object instanceof Node node) {
            found.add(node.next);
        }
        return found;
    }

    static String data(Object object) {
        StringBuilder text = new StringBuilder();
        if (object instanceof Marker marker) text.append(String.format("%016x", marker.mark));
        if (object instanceof Sub sub) text.append(String.format("%08x%016x", sub.high, sub.low));
        if (object instanceof Node node) text.append(String.format("%016x", node.value));
        if (object instanceof Tiny) text.append("02030203");
        if (object instanceof byte[] array) for (byte b : array) text.append(String.format("%02x", b));
        if (object instanceof boolean[] array) for (boolean b : array) text.append(b ? "01" : "00");
        if (object instanceof char[] array) for (char c : array) text.append(String.format("%04x", (int) c));
        if (object instanceof int[] array) for (int i : array) text.append(String.format("%08x", i));
        if (object instanceof long[] array) for (long l : array) text.append(String.format("%016x", l));
        if (object instanceof double[] array) for (double d : array) text.append(String.format("%016x", Double.doubleToLongBits(d)));
        return text.toString();
    }

    static void describe() {
        IdentityHashMap<Object, Integer> numbers = new IdentityHashMap<>();
        List<Object> met = new ArrayList<>();
        numbers.put(marker, 0);
        met.add(marker);
        StringBuilder text = new StringBuilder();
        for (int i = 0; i < met.size(); i++) {
            List<Object> references = references(met.get(i));
            String data = data(met.get(i));
            StringBuilder leads = new StringBuilder();
            for (Object reference : references) {
                if (reference != null && numbers.putIfAbsent(reference, met.size()) == null) met.add(reference);
                leads.append(' ').append(reference == null ? "-" : numbers.get(reference).toString());
            }
            text.append(1 + references.size() + (data.length() + 15) / 16).append(leads).append(" : ").append(data).append('\n');
        }
        System.out.print(text);
        System.out.flush();
    }

    public static void main(String[] words) throws Exception {
        build();
        describe();
        if (words[1].equals("wait")) {
            System.out.println("waiting");
            System.in.read();
        } else if (words[1].equals("fill")) {
            while (true) filling.add(new byte[100_000]);
        } else {
            ManagementFactory.getPlatformMXBeans(HotSpotDiagnosticMXBean.class).get(0).dumpHeap(words[0], words[1].equals("live"));
        }
    }
}
