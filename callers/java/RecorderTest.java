import java.nio.charset.StandardCharsets;
import java.nio.file.Files;
import java.nio.file.Path;
import java.util.ArrayList;
import java.util.List;
import java.util.Map;
import java.util.Queue;
import java.util.Set;
import java.util.concurrent.ConcurrentHashMap;
import java.util.concurrent.ConcurrentLinkedQueue;
import java.util.concurrent.TimeUnit;
import java.util.concurrent.atomic.AtomicInteger;
import java.util.concurrent.atomic.AtomicLong;

/**
 * Drives a ConcurrentLinkedQueue and a queue with a race by 4 threads, records them, and lets the program judge the histories.
 *
 * <pre>java RecorderTest PROGRAM RUNS FOLDER</pre>
 */
public final class RecorderTest {
    private static final int THREADS = 4, CALLS = 50, MOST_OPERATIONS = 5;
    /** Of the calls of a right queue more overlap another one: all but some of the thread that ends last. */
    private static final double LEAST_OVERLAP = 0.5;
    /** A thread waits no longer for others, in nanoseconds: only if one of them has died. */
    private static final long PATIENCE = TimeUnit.SECONDS.toNanos(60);

    private static String program;
    private static Path folder;

    private static void want(boolean holds, String what, Object said) {
        if (!holds) {
            System.err.println("RecorderTest: " + what + "\n" + said);
            System.exit(1);
        }
    }

    /** A queue, where its threads wait for each other. */
    private abstract static class Ends {
        private final AtomicInteger waiting = new AtomicInteger(), working = new AtomicInteger(THREADS);
        private final long begun = System.nanoTime();

        abstract void add(long value);

        abstract Long poll();

        /**
         * Waits until another thread is here too, or no other one is at work. While a thread waits, the others need not, so they go on and
         * end.
         */
        final void waitForAnother() {
            waiting.incrementAndGet();
            while (waiting.get() < 2 && working.get() > 1 && System.nanoTime() - begun < PATIENCE) {
                Thread.yield();
            }
            waiting.decrementAndGet();
        }

        /** A thread calls it when it has made its last call. */
        final void leave() {
            working.decrementAndGet();
        }
    }

    /**
     * The poll of this queue looks at the head and removes it in two steps: another thread may take the same value in between. A thread
     * waits for one, so each run has the fault: the first two that come in take the same.
     */
    private static final class Racy extends Ends {
        private final Queue<Long> values = new ConcurrentLinkedQueue<>();

        @Override
        void add(long value) {
            values.add(value);
        }

        @Override
        Long poll() {
            Long head = values.peek();
            if (head != null) {
                waitForAnother();
                values.remove(head);
            }
            return head;
        }
    }

    /** Each call waits at first, so that calls overlap on each machine. */
    private static final class Right extends Ends {
        private final ConcurrentLinkedQueue<Long> values = new ConcurrentLinkedQueue<>();

        @Override
        void add(long value) {
            waitForAnother();
            values.add(value);
        }

        @Override
        Long poll() {
            waitForAnother();
            return values.poll();
        }
    }

    private static void work(Ends queue, Recorder.Journal journal, int client) {
        for (int i = 0; i < CALLS; i++) {
            long value = client * CALLS + i;
            if (i % 2 == 0) {
                journal.run("enqueue", value, () -> queue.add(value));
            } else {
                journal.call("dequeue", null, queue::poll);
            }
        }
        queue.leave();
    }

    private static List<Recorder.Journal> record(Recorder recorder, Ends queue) throws Exception {
        List<Recorder.Journal> journals = new ArrayList<>();
        List<Thread> threads = new ArrayList<>();
        for (int client = 0; client < THREADS; client++) {
            journals.add(recorder.journal());
        }
        for (int client = 0; client < THREADS; client++) {
            int own = client;
            threads.add(new Thread(() -> work(queue, journals.get(own), own)));
        }
        threads.forEach(Thread::start);
        for (Thread thread : threads) {
            thread.join();
        }
        return journals;
    }

    private static final class Answer {
        final int status;
        final List<String> lines;

        Answer(int status, List<String> lines) {
            this.status = status;
            this.lines = lines;
        }

        /** Whether the lines are those of an answer with this status: another program may have the name of fcbench. */
        boolean fits() {
            switch (status) {
                case 0: return !lines.isEmpty() && lines.get(0).startsWith("yes: ");
                case 1: return lines.stream().anyMatch(line -> line.startsWith("; object ") && line.endsWith(": impossible"));
                default: return false;
            }
        }
    }

    private static Answer judge(String history) throws Exception {
        Path file = folder.resolve("java.history.edn"), said = folder.resolve("java.said");
        Files.write(file, history.getBytes(StandardCharsets.UTF_8));
        Process judged = new ProcessBuilder(program, "judge", file.toString()).redirectOutput(said.toFile()).start();
        Answer answer = new Answer(judged.waitFor(), Files.readAllLines(said));
        want(answer.fits(), program + " ended with status " + answer.status + " and without the lines of such an answer", answer.lines);
        return answer;
    }

    private static void rightQueues(int runs) throws Exception {
        for (int run = 0; run < runs; run++) {
            Recorder recorder = new Recorder();
            List<Recorder.Journal> journals = record(recorder, new Right());
            Answer answer = judge(recorder.history(journals));
            want(answer.status == 0, "a ConcurrentLinkedQueue is linearizable", answer.lines);
            Recorder.Overlap overlap = Recorder.overlap(journals);
            want(overlap.share > LEAST_OVERLAP, "its calls overlap", overlap);
        }
    }

    private static void races(int runs) throws Exception {
        for (int run = 0; run < runs; run++) {
            Recorder recorder = new Recorder();
            Answer answer = judge(recorder.history(record(recorder, new Racy())));
            long operations = answer.lines.stream().filter(line -> line.contains(": process ")).count();
            want(answer.status == 1, "a queue with a race is refuted", answer.lines);
            want(0 < operations && operations <= MOST_OPERATIONS, "by a reason of few operations", answer.lines);
        }
    }

    private static void wantText(Recorder recorder, Recorder.Journal journal, String wanted, String what) throws Exception {
        String text = recorder.history(List.of(journal));
        want(text.equals(wanted), what, text);
        want(judge(text).status == 0, what + ": it is linearizable", text);
    }

    private static void steps() throws Exception {
        Recorder recorder = new Recorder();
        Recorder.Journal journal = recorder.journal();
        journal.invoke(0, "enqueue", 7);
        journal.gaveUp();
        journal.invoke(0, "enqueue", 8);
        journal.failed();
        journal.run("enqueue", 9, () -> {});
        journal.call("dequeue", null, () -> 7);
        journal.runOn(1, "acquire", null, () -> {});
        wantText(recorder, journal, "{:process 0, :type :invoke, :f :enqueue, :value 7, :object 0}\n"
            + "{:process 0, :type :info, :f :enqueue, :value 7, :object 0}\n"
            + "{:process 1, :type :invoke, :f :enqueue, :value 8, :object 0}\n"
            + "{:process 1, :type :fail, :f :enqueue, :value nil, :object 0}\n"
            + "{:process 1, :type :invoke, :f :enqueue, :value 9, :object 0}\n"
            + "{:process 1, :type :ok, :f :enqueue, :value 9, :object 0}\n"
            + "{:process 1, :type :invoke, :f :dequeue, :value nil, :object 0}\n"
            + "{:process 1, :type :ok, :f :dequeue, :value 7, :object 0}\n"
            + "{:process 1, :type :invoke, :f :acquire, :value nil, :object 1}\n"
            + "{:process 1, :type :ok, :f :acquire, :value nil, :object 1}\n", "calls in steps");
    }

    private static void callsThatAreKnownWhenTheyReturned() throws Exception {
        Recorder recorder = new Recorder(false);
        Recorder.Journal journal = recorder.journal();
        Map<Long, Long> map = new ConcurrentHashMap<>();
        for (long value : List.of(5L, 6L)) {
            journal.invoke(0, "put", Recorder.pair(1, value));
            Long found = map.putIfAbsent(1L, value);
            if (found == null) {
                journal.returnedAs("put", Recorder.pair(1, value), null);
            } else {
                journal.returnedAs("get", 1, found);
            }
        }
        AtomicLong counter = new AtomicLong(3);
        journal.runOn(1, "write", 3, () -> {});
        journal.invoke(1, "cas", Recorder.pair(0, 1));
        long n = counter.getAndIncrement();
        journal.returnedAs("cas", Recorder.pair(n, n + 1), Recorder.pair(n, n + 1));
        wantText(recorder, journal, "{:process 0, :type :invoke, :f :put, :value [1 5], :object 0}\n"
            + "{:process 0, :type :ok, :f :put, :value nil, :object 0}\n"
            + "{:process 0, :type :invoke, :f :get, :value 1, :object 0}\n"
            + "{:process 0, :type :ok, :f :get, :value 5, :object 0}\n"
            + "{:process 0, :type :invoke, :f :write, :value 3, :object 1}\n"
            + "{:process 0, :type :ok, :f :write, :value 3, :object 1}\n"
            + "{:process 0, :type :invoke, :f :cas, :value [3 4], :object 1}\n"
            + "{:process 0, :type :ok, :f :cas, :value [3 4], :object 1}\n", "calls that are known when they returned");
    }

    /** A set, a counter, a lock, and a map that does not tell what was there. */
    private static void setsCountersAndLocks() throws Exception {
        Recorder recorder = new Recorder(false);
        Recorder.Journal journal = recorder.journal();
        Set<Long> set = ConcurrentHashMap.newKeySet();
        for (long element : List.of(7L, 7L)) {
            journal.call("add", element, () -> set.add(element));
            journal.call("contains", element, () -> set.contains(element));
        }
        journal.call("remove", 7, () -> set.remove(7L));
        AtomicLong counter = new AtomicLong();
        journal.callOn(1, "fetch-add", 2, () -> counter.getAndAdd(2));
        journal.callOn(1, "get-count", null, counter::get);
        journal.runOn(2, "lock", 1, () -> {});
        journal.runOn(2, "unlock", 1, () -> {});
        journal.runOn(3, "assoc", Recorder.pair(1, 10), () -> {});
        journal.callOn(3, "replace", Recorder.triple(1, 10, 11), () -> true);
        String text = recorder.history(List.of(journal));
        want(text.contains(":f :replace, :value [1 10 11], :object 3"), "the argument of replace", text);
        Answer answer = judge(text);
        want(answer.lines.get(0).equals("yes: 11 operations, 4 objects"), "sets, counters and locks", answer.lines);
    }

    /** An argument and a reply are those of the moment of the call, even if their owner changes them later. */
    private static void listsThatChangeLater() throws Exception {
        Recorder recorder = new Recorder(false);
        Recorder.Journal journal = recorder.journal();
        List<Long> pair = new ArrayList<>(List.of(1L, 1L));
        journal.run("assoc", pair, () -> {});
        pair.set(1, 2L);
        journal.run("assoc", pair, () -> {});
        journal.callOn(1, "cas", pair, () -> pair);
        journal.invoke(1, "cas", pair);
        journal.returnedAs("cas", pair, pair);
        pair.set(1, 9L);
        String text = recorder.history(List.of(journal));
        want(text.split("\\[1 1]", -1).length == 2 && text.split("\\[1 2]", -1).length == 6, "lists that change later", text);
    }

    private static String messageOf(Runnable act) {
        try {
            act.run();
        } catch (IllegalStateException error) {
            return error.getMessage();
        }
        return "nothing is thrown";
    }

    private static void refusals() {
        Recorder recorder = new Recorder();
        Recorder.Journal lost = recorder.journal(), kept = recorder.journal();
        lost.run("enqueue", 7, () -> {});
        lost.invoke(0, "enqueue", 8);
        kept.call("dequeue", null, () -> 7);
        String missing = messageOf(() -> recorder.history(List.of(kept)));
        want(missing.equals("3 events are missing: a journal is missing, or this recorder has already made a history"), "a lost journal", missing);
        String other = messageOf(() -> new Recorder().history(List.of(kept)));
        want(other.equals("a journal of another recorder was handed in"), "another recorder", other);
        Recorder adds = new Recorder();
        Recorder.Journal journal = adds.journal();
        journal.call("enqueue", 7, () -> 2);
        String length = messageOf(() -> adds.history(List.of(journal)));
        want(length.equals("enqueue replied 2 and not its argument 7: use run"), "a reply that is not the argument", length);
        Recorder puts = new Recorder();
        Recorder.Journal blind = puts.journal();
        blind.run("put", Recorder.pair(1, 2), () -> {});
        String none = messageOf(() -> puts.history(List.of(blind)));
        want(none.equals("put was given no reply: use call, and give null where nothing was there"), "a reply that is not given", none);
        Recorder words = new Recorder();
        Recorder.Journal word = words.journal();
        word.call("read", null, () -> "seven");
        String text = messageOf(() -> words.history(List.of(word)));
        want(text.equals("seven is no argument or reply: give a number, a pair, a boolean or null, or use run"), "a word", text);
    }

    private static void overlap() {
        Recorder recorder = new Recorder();
        Recorder.Journal one = recorder.journal(), other = recorder.journal();
        one.run("enqueue", 1, () -> {});
        one.invoke(0, "enqueue", 2);
        other.run("enqueue", 3, () -> one.returned(null));
        one.invoke(0, "enqueue", 4);
        other.invoke(0, "enqueue", 5);
        Recorder.Overlap found = Recorder.overlap(List.of(one, other));
        want(found.share == 0.8 && found.atOnce == 2, "four of five calls overlap", found.share);
    }

    public static void main(String[] words) throws Exception {
        program = words[0];
        int runs = Integer.parseInt(words[1]);
        folder = Path.of(words[2]);
        steps();
        callsThatAreKnownWhenTheyReturned();
        refusals();
        overlap();
        listsThatChangeLater();
        setsCountersAndLocks();
        rightQueues(runs);
        races(runs);
        System.out.println("RecorderTest: passed, " + runs + " runs of each");
    }
}
