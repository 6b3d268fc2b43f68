import java.util.ArrayList;
import java.util.Collections;
import java.util.Comparator;
import java.util.HashMap;
import java.util.HashSet;
import java.util.List;
import java.util.Map;
import java.util.Set;
import java.util.concurrent.atomic.AtomicLong;
import java.util.function.Supplier;
import java.util.stream.Collectors;

/**
 * Records the calls of threads on concurrent objects, as a history for fcbench. Copy this file. Needs Java 11.
 *
 * <pre>
 * Recorder recorder = new Recorder();
 * List&lt;Recorder.Journal&gt; journals = List.of(recorder.journal(), recorder.journal()); // before the threads, one for each
 * // in a thread, which has its journal:
 * journal.run("enqueue", 7, () -&gt; queue.add(7L));
 * journal.call("dequeue", null, () -&gt; queue.poll());
 * // after the threads have ended:
 * String text = recorder.history(journals);
 * </pre>
 *
 * An argument or a reply is null, false, a Byte, Short, Integer or Long, or a pair of numbers, which {@link #pair} makes.
 *
 * <p>An atomic counter gives a ticket before each call and one after it. A thread writes into its own journal and takes no lock. The events
 * in the order of their tickets are the history: if it shows one call returning before another was invoked, that is what happened. So a
 * history that is not linearizable shows that the object is not.
 *
 * <p>Calls that never overlap show no fault. So after one ticket of an invocation in eight the thread yields, which leaves room for
 * another thread: {@code new Recorder(false)} turns this off. {@link #overlap} says how much the calls of the journals overlapped.
 *
 * <p>A journal that is not handed to {@link #history} takes its calls with it: it throws IllegalStateException then.
 *
 * <p>The reply of enqueue, push, insert and write is their argument, and that of acquire, release, lock, unlock, assoc, dissoc and clear is
 * null: such calls are made by {@code run}, which drops what they give, as the boolean of a queue's {@code add}. The reply of cas is its
 * pair if it swapped, else false. That of put and del is what was there before, or null if nothing was: a store that does not tell
 * it has assoc and dissoc. That of add, remove, contains, create, put-if-absent and replace is a boolean, and that of fetch-add the number
 * before, as getAndAdd gives it.
 *
 * <p>What a call was may be known only when it has returned, as putIfAbsent of a map, which gives the value that it found, and is a get
 * then. Invoke it as put-if-absent, since if it times out, it may have put, and end it with
 * {@code returnedAs("put-if-absent", pair(k, v), true)} or {@code returnedAs("get", k, found)}.
 *
 * <p>A call that does not return, such as one that throws or times out, may have happened: its operation ends with :info, and the journal
 * goes on as a new process, as Jepsen's threads do. Use {@code failed} and {@link Failed} only if the call definitely did not happen: if a
 * call that timed out is written as failed, a correct queue gets a no.
 */
public final class Recorder {
    /** A thread yields after one ticket of an invocation in this many. */
    private static final int CALLS_TO_A_YIELD = 8;

    /** No reply was given. */
    private static final Object NOT_GIVEN = new Object();

    private final AtomicLong tickets = new AtomicLong(), processes = new AtomicLong();
    private final boolean yields;

    /** A recorder whose threads yield now and then between the ticket of an invocation and the call. */
    public Recorder() {
        this(true);
    }

    public Recorder(boolean yields) {
        this.yields = yields;
    }

    /** The call definitely did not happen. */
    public static class Failed extends RuntimeException {
        private static final long serialVersionUID = 1L;

        public Failed(String message) {
            super(message);
        }
    }

    /** The argument of put, a key and a value, and that of cas, what is expected and what is new. */
    public static Object pair(long first, long second) {
        return List.of(first, second);
    }

    /** The argument of replace: a key, what is expected and what is new. */
    public static Object triple(long key, long expected, long replacement) {
        return List.of(key, expected, replacement);
    }

    private static final class Event {
        final long ticket, process;
        final int object;
        final String kind;
        String function;
        Object value;

        Event(long ticket, long process, int object, String kind, String function, Object value) {
            this.ticket = ticket;
            this.process = process;
            this.object = object;
            this.kind = kind;
            this.function = function;
            this.value = value;
        }

        boolean isOk() {
            return kind.equals("ok");
        }

        /** Whether the reply of the function is its argument. */
        boolean isPut() {
            return Set.of("enqueue", "push", "insert", "write").contains(function);
        }

        /** Whether the reply of the function is a boolean. */
        boolean isQuestion() {
            return Set.of("add", "remove", "contains", "create", "put-if-absent", "replace").contains(function);
        }

        /** Whether the reply of the function is nil. */
        boolean isSilent() {
            return Set.of("acquire", "release", "lock", "unlock", "assoc", "dissoc", "clear").contains(function);
        }

        void appendTo(StringBuilder text) {
            text.append("{:process ").append(process).append(", :type :").append(kind).append(", :f :").append(function);
            text.append(", :value ").append(textOf(value)).append(", :object ").append(object).append("}\n");
        }
    }

    private static String textOf(Object value) {
        if (value == null || value == NOT_GIVEN) {
            return "nil";
        }
        if (value instanceof Boolean || value instanceof Byte || value instanceof Short || value instanceof Integer || value instanceof Long) {
            return value.toString();
        }
        if (value instanceof List && Set.of(2, 3).contains(((List<?>) value).size())) {
            return ((List<?>) value).stream().map(Recorder::textOf).collect(Collectors.joining(" ", "[", "]"));
        }
        throw new IllegalStateException(value + " is no argument or reply: give a number, a pair, a boolean or null, or use run");
    }

    /** An argument or a reply that its owner may change later, as it is now. */
    private static Object copied(Object value) {
        return value instanceof List ? Collections.unmodifiableList(new ArrayList<>((List<?>) value)) : value;
    }

    /** A number that looks drawn, for each ticket. */
    private static long mixed(long ticket) {
        return ticket * 0x9E3779B97F4A7C15L >>> 32;
    }

    /** What one thread did. */
    public final class Journal {
        private final List<Event> events = new ArrayList<>();
        private long process = processes.getAndIncrement();
        private boolean isPending;

        private Journal() {}

        private Recorder recorder() {
            return Recorder.this;
        }

        /** Makes the call on object 0, and records it: act makes it and gives its reply. */
        public <T> T call(String function, Object argument, Supplier<T> act) {
            return callOn(0, function, argument, act);
        }

        /** Makes a call on an object, and records it. If act throws Failed, it definitely did not happen. */
        public <T> T callOn(int object, String function, Object argument, Supplier<T> act) {
            invoke(object, function, argument);
            T reply = done(act);
            returned(reply);
            return reply;
        }

        /** Makes the call on object 0, and records it. Its reply is known: what act gives is dropped. */
        public void run(String function, Object argument, Runnable act) {
            runOn(0, function, argument, act);
        }

        /** The same on an object. */
        public void runOn(int object, String function, Object argument, Runnable act) {
            invoke(object, function, argument);
            done(() -> {
                act.run();
                return null;
            });
            end("ok", NOT_GIVEN);
        }

        private <T> T done(Supplier<T> act) {
            try {
                return act.get();
            } catch (Failed failed) {
                failed();
                throw failed;
            } catch (RuntimeException | Error error) {
                gaveUp();
                throw error;
            }
        }

        /**
         * Call it just before a call, if call and run do not suit. Then call one of returned, failed and gaveUp; if there is none
         * before the next invoke, it is gaveUp.
         */
        public void invoke(int object, String function, Object argument) {
            if (isPending) {
                gaveUp();
            }
            Object own = copied(argument);
            isPending = true;
            long ticket = tickets.getAndIncrement();
            events.add(new Event(ticket, process, object, "invoke", function, own));
            if (yields && mixed(ticket) % CALLS_TO_A_YIELD == 0) {
                Thread.yield();
            }
        }

        /** Call it just after the call returned, with its reply, which may be null. */
        public void returned(Object reply) {
            end("ok", reply);
        }

        /** Like returned, if it is known only now what the call was: its invocation is written with this function and argument. */
        public void returnedAs(String function, Object argument, Object reply) {
            Object own = copied(argument);
            end("ok", reply);
            Event call = events.get(events.size() - 2);
            call.function = function;
            call.value = own;
            events.get(events.size() - 1).function = function;
        }

        /** Call it only if the call definitely did not happen: it is written with :fail. A timeout is gaveUp. */
        public void failed() {
            end("fail", null);
        }

        /**
         * Call it if the call may have happened, or may still happen, as after a timeout: it is written with :info, and what follows is
         * of another process.
         */
        public void gaveUp() {
            end("info", null);
            process = processes.getAndIncrement();
        }

        /** Only the reply is copied before the ticket of a return is drawn. */
        private void end(String kind, Object reply) {
            if (!isPending) {
                throw new IllegalStateException("no call is outstanding");
            }
            Object own = copied(reply);
            long ticket = tickets.getAndIncrement();
            Event call = events.get(events.size() - 1);
            boolean isArgument = kind.equals("info") || kind.equals("ok") && (reply == null || reply == NOT_GIVEN) && call.isPut();
            events.add(new Event(ticket, process, call.object, kind, call.function, isArgument ? call.value : own));
            isPending = false;
        }

        /** Throws if the reply of a call is missing, or is to be its argument and is not. */
        private void wantReplies() {
            for (int at = 1; at < events.size(); at++) {
                Event call = events.get(at - 1), end = events.get(at);
                if (end.isOk() && end.value == NOT_GIVEN && !end.isSilent()) {
                    throw new IllegalStateException(end.function + " was given no reply: use call, and give null where nothing was there");
                }
                if (end.isOk() && end.isQuestion() && !(end.value instanceof Boolean)) {
                    throw new IllegalStateException(end.function + " replied " + textOf(end.value) + ", and neither true nor false");
                }
                if (end.isOk() && end.isPut() && !textOf(end.value).equals(textOf(call.value))) {
                    throw new IllegalStateException(end.function + " replied " + textOf(end.value) + " and not its argument "
                        + textOf(call.value) + ": use run");
                }
                if (end.isOk() && !end.isQuestion() && Boolean.TRUE.equals(end.value)) {
                    throw new IllegalStateException(end.function + " replied true: give its reply, or use run");
                }
            }
        }
    }

    /** A journal for one thread. */
    public Journal journal() {
        return new Journal();
    }

    /**
     * The history, after all threads have ended: each event at the place of its ticket. It takes each journal of this recorder once, also
     * those of a history that it made before: without the calls of one of them a correct object could get a no.
     */
    public String history(List<Journal> journals) {
        for (Journal journal : journals) {
            if (journal.recorder() != this) {
                throw new IllegalStateException("a journal of another recorder was handed in");
            }
            if (journal.isPending) {
                journal.gaveUp();
            }
            journal.wantReplies();
        }
        if (new HashSet<>(journals).size() < journals.size()) {
            throw new IllegalStateException("a journal was handed in twice");
        }
        List<Event> events = eventsOf(journals);
        long missing = tickets.get() - events.size();
        if (missing != 0) {
            throw new IllegalStateException(missing + " events are missing: a journal is missing, or this recorder has already made a history");
        }
        StringBuilder text = new StringBuilder();
        events.forEach(event -> event.appendTo(text));
        return text.toString();
    }

    private static List<Event> eventsOf(List<Journal> journals) {
        List<Event> events = new ArrayList<>();
        journals.forEach(journal -> events.addAll(journal.events));
        events.sort(Comparator.comparingLong(event -> event.ticket));
        return events;
    }

    /** How much calls overlapped. */
    public static final class Overlap {
        /** Which share of the calls overlapped another one, from 0 to 1. If it is small, the history could hardly have failed. */
        public final double share;
        /** How many calls were outstanding at once at most. */
        public final int atOnce;

        Overlap(double share, int atOnce) {
            this.share = share;
            this.atOnce = atOnce;
        }

        @Override
        public String toString() {
            return String.format("%.0f %% of the calls overlap another one, at most %d at once", 100 * share, atOnce);
        }
    }

    /** How much the calls of these journals overlapped. */
    public static Overlap overlap(List<Journal> journals) {
        int calls = 0, atOnce = 0;
        Map<Long, Long> outstanding = new HashMap<>();
        Set<Long> overlapping = new HashSet<>();
        for (Event event : eventsOf(journals)) {
            if (!event.kind.equals("invoke")) {
                outstanding.remove(event.process);
                continue;
            }
            calls++;
            outstanding.put(event.process, event.ticket);
            atOnce = Math.max(atOnce, outstanding.size());
            if (outstanding.size() == 2) {
                overlapping.addAll(outstanding.values());
            } else if (outstanding.size() > 2) {
                overlapping.add(event.ticket);
            }
        }
        return new Overlap(calls == 0 ? 0 : (double) overlapping.size() / calls, atOnce);
    }
}
