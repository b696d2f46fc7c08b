import java.util.concurrent.ConcurrentLinkedQueue;

/** The workload of `shenrun queue COUNT` on the JDK's queue, with the same three lines. The standard error has the seconds of the threads. */
public class Queue {
    static final ConcurrentLinkedQueue<Long> QUEUE = new ConcurrentLinkedQueue<>();

    static final class Taker extends Thread {
        final long count;
        long items;
        long sum;

        Taker(long count) {
            this.count = count;
        }

        @Override
        public void run() {
            while (items < count) {
                Long got = QUEUE.poll();
                if (got != null) {
                    items++;
                    sum += got;
                }
            }
        }
    }

    static Thread putter(long first, long count) {
        return new Thread(() -> {
            for (long i = 0; i < count; i++) {
                QUEUE.add(first + i);
            }
        });
    }

    public static void main(String[] words) throws InterruptedException {
        long count = Long.parseLong(words[0]);
        Taker[] takers = {new Taker(count), new Taker(count)};
        Thread[] threads = {putter(1000001, count), putter(2000001, count), takers[0], takers[1]};
        long start = System.nanoTime();
        for (Thread thread : threads) {
            thread.start();
        }
        for (Thread thread : threads) {
            thread.join();
        }
        System.err.println((System.nanoTime() - start) / 1e9);
        System.out.println("queue " + count);
        System.out.println("items " + (takers[0].items + takers[1].items));
        System.out.println("sum " + (takers[0].sum + takers[1].sum));
    }
}
