import java.util.ArrayDeque;
import java.util.HashSet;
import java.util.Set;
import java.util.concurrent.atomic.AtomicLongArray;
import java.util.concurrent.atomic.AtomicReferenceArray;

/** The workload of `shenrun churn SEED COUNT` on objects of Java, with the same eight lines. The standard error has the seconds of the threads. */
public class Churn {
    static final class Node {
        final AtomicReferenceArray<Node> refs;
        final AtomicLongArray nums;

        Node(int refs, int nums) {
            this.refs = new AtomicReferenceArray<>(refs);
            this.nums = new AtomicLongArray(nums);
        }
    }

    static final class Worker extends Thread {
        final Node hub;
        final int number;
        final long seed;
        final int count;
        final Node[] roots = new Node[16];
        long commands;
        long bad;
        long sum;

        Worker(Node hub, int number, long seed, int count) {
            this.hub = hub;
            this.number = number;
            this.seed = seed;
            this.count = count;
            roots[0] = hub;
        }

        @Override
        public void run() {
            roots[1] = new Node(16, 0);
            roots[0].refs.set(number, roots[1]);
            commands += 2;
            for (int i = 0; i < count; i++) {
                int k = i % 16;
                roots[2] = new Node((int) ((seed + i) % 4), 1 + i % 8);
                roots[2].nums.set(0, seed + i + 1);
                roots[1].refs.set(k, roots[2]);
                roots[2] = null;
                roots[3] = roots[1].refs.get(k);
                if (roots[3] == null) {
                    bad += 1;
                } else {
                    sum += roots[3].nums.get(0);
                }
                roots[1].refs.compareAndSet(k, roots[3], roots[3]);
                roots[4] = roots[1].refs.getAndSet(k, roots[3]);
                commands += 8;
            }
        }
    }

    public static void main(String[] words) throws InterruptedException {
        long seed = Long.parseLong(words[0]);
        int count = Integer.parseInt(words[1]);
        Node hub = new Node(16, 0);
        long start = System.nanoTime();
        Worker[] workers = new Worker[3];
        for (int t = 0; t < 3; t++) {
            workers[t] = new Worker(hub, t + 1, seed, count);
            workers[t].start();
        }
        long commands = 0;
        long bad = 0;
        long sum = 0;
        Set<Node> seen = new HashSet<>();
        ArrayDeque<Node> found = new ArrayDeque<>();
        for (Worker worker : workers) {
            worker.join();
            commands += worker.commands;
            bad += worker.bad;
            sum += worker.sum;
            for (Node root : worker.roots) {
                if (root != null && seen.add(root)) {
                    found.add(root);
                }
            }
        }
        System.err.println((System.nanoTime() - start) / 1e9);
        long size = 0;
        while (!found.isEmpty()) {
            Node node = found.remove();
            size += 3 + node.refs.length() + node.nums.length();
            for (int f = 0; f < node.refs.length(); f++) {
                Node next = node.refs.get(f);
                if (next != null && seen.add(next)) {
                    found.add(next);
                }
            }
        }
        System.out.printf("churn %d %d%nthreads 3%ncommands %d%nbad %d%nfull 0%nobjects %d%nwords %d%nsum %d%n", seed, count, commands, bad, seen.size(), size, sum);
    }
}
