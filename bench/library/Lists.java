import com.sun.management.OperatingSystemMXBean;
import java.lang.management.ManagementFactory;

/** The list program on the JDK's heap: `Lists LENGTH TIMES THREADS` writes the sum of all, the seconds of the threads, and those of processor time meanwhile. */
public class Lists {
    static final class Node {
        final Node next;
        final long number;

        Node(Node next, long number) {
            this.next = next;
            this.number = number;
        }
    }

    static final class Lister extends Thread {
        final int length;
        final int times;
        long sum;

        Lister(int length, int times) {
            this.length = length;
            this.times = times;
        }

        @Override
        public void run() {
            for (int time = 0; time < times; time++) {
                Node list = null;
                for (int i = 1; i <= length; i++) {
                    list = new Node(list, i);
                }
                for (; list != null; list = list.next) {
                    sum += list.number;
                }
            }
        }
    }

    public static void main(String[] words) throws InterruptedException {
        Lister[] threads = new Lister[Integer.parseInt(words[2])];
        OperatingSystemMXBean system = (OperatingSystemMXBean) ManagementFactory.getOperatingSystemMXBean();
        long busy = system.getProcessCpuTime();
        long start = System.nanoTime();
        for (int i = 0; i < threads.length; i++) {
            threads[i] = new Lister(Integer.parseInt(words[0]), Integer.parseInt(words[1]));
            threads[i].start();
        }
        long sum = 0;
        for (Lister thread : threads) {
            thread.join();
            sum += thread.sum;
        }
        System.out.println(sum + " " + (System.nanoTime() - start) / 1e9 + " " + (system.getProcessCpuTime() - busy) / 1e9);
    }
}
