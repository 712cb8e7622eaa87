import java.util.ArrayList;
import java.util.HashMap;
import java.util.List;
import java.util.Map;
import java.util.Random;

/** A service at rest: so many orders with lines, by number and by lists, of which it has collected some and dropped others since. */
public final class Service {
    private static final class Line {
        final long item;
        final double price;

        Line(long item, double price) {
            this.item = item;
            this.price = price;
        }
    }

    private static final class Order {
        final String customer;
        final List<Line> lines = new ArrayList<>();
        final Order before;

        Order(int number, Order before) {
            customer = "customer " + number % 1000;
            this.before = before;
        }
    }

    private static final Map<Integer, Order> orders = new HashMap<>();
    private static final Random random = new Random(7);

    private static Order take(int number, Order before) {
        Order order = new Order(number, before);
        for (int count = random.nextInt(3); count >= 0; count--) order.lines.add(new Line(random.nextLong(), random.nextDouble()));
        orders.put(number, order);
        return order;
    }

    public static void main(String[] words) throws InterruptedException {
        int count = Integer.parseInt(words[0]);
        Order last = null;
        for (int number = 0; number < count; number++) {
            last = take(number, number % 50 == 0 ? null : last);
            if (number % 3 == 0) orders.remove(random.nextInt(number + 1));
        }
        System.gc();
        for (int number = 0; number < count; number += 5) orders.remove(number);
        for (int number = count; number < count + count / 10; number++) take(number, null);
        System.out.println("at rest");
        Thread.sleep(600_000);
    }
}
