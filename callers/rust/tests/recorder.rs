//! Drives a right queue and one with a race by 4 threads, records them, and judges the histories. FCBENCH_RUNS says how many
//! runs of each are made.

use fcbench::recorder::{overlap, Journal, Overlap, Recorder, Reply, Value};
use fcbench::{judge, Verdict};
use std::collections::{BTreeMap, VecDeque};
use std::panic::{catch_unwind, AssertUnwindSafe};
use std::sync::atomic::{AtomicI64, AtomicUsize, Ordering::SeqCst};
use std::sync::Mutex;
use std::thread;
use std::time::{Duration, Instant};

const THREADS: usize = 4;
const CALLS: usize = 50;
const MOST_OPERATIONS: usize = 5;
/// Of the calls of a right queue more overlap another one: all but some of the thread that ends last.
const LEAST_OVERLAP: f64 = 0.5;
/// A thread waits no longer for others: only if one of them has died.
const PATIENCE: Duration = Duration::from_secs(60);

/// Its dequeue reads the index of the head and then moves it.
struct Queue {
    has_race: bool,
    values: Vec<AtomicI64>,
    head: AtomicUsize,
    tail: AtomicUsize,
    waiting: AtomicUsize,
    working: AtomicUsize,
    deadline: Instant,
    enqueuing: Mutex<()>,
    dequeuing: Mutex<()>,
}

impl Queue {
    fn new(has_race: bool) -> Queue {
        Queue {
            has_race,
            values: (0..THREADS * CALLS).map(|_| AtomicI64::new(0)).collect(),
            head: AtomicUsize::new(0),
            tail: AtomicUsize::new(0),
            waiting: AtomicUsize::new(0),
            working: AtomicUsize::new(THREADS),
            deadline: Instant::now() + PATIENCE,
            enqueuing: Mutex::new(()),
            dequeuing: Mutex::new(()),
        }
    }

    /// In a right queue each call waits at first, so that calls overlap on each machine.
    fn enqueue(&self, value: i64) -> i64 {
        if !self.has_race {
            self.wait_for_another();
        }
        let _lock = self.enqueuing.lock().unwrap();
        let tail = self.tail.load(SeqCst);
        self.values[tail].store(value, SeqCst);
        self.tail.store(tail + 1, SeqCst);
        value
    }

    fn dequeue(&self) -> Option<i64> {
        if self.has_race {
            return self.take();
        }
        self.wait_for_another();
        let _lock = self.dequeuing.lock().unwrap();
        self.take()
    }

    /// The race: another thread may come in between and take the same value. A thread waits for one, so each run has the fault: the
    /// first two that come in take the same.
    fn take(&self) -> Option<i64> {
        let head = self.head.load(SeqCst);
        if head == self.tail.load(SeqCst) {
            return None;
        }
        if self.has_race {
            self.wait_for_another();
        }
        self.head.store(head + 1, SeqCst);
        Some(self.values[head].load(SeqCst))
    }

    /// Waits until another thread is here too, or no other one is at work. While a thread waits, the others need not, so they go on
    /// and end.
    fn wait_for_another(&self) {
        self.waiting.fetch_add(1, SeqCst);
        while self.waiting.load(SeqCst) < 2 && self.working.load(SeqCst) > 1 && Instant::now() < self.deadline {
            thread::yield_now();
        }
        self.waiting.fetch_sub(1, SeqCst);
    }
}

fn work(queue: &Queue, journal: &mut Journal, client: usize) {
    for i in 0..CALLS {
        let value = (client * CALLS + i) as i64;
        if i % 2 == 0 {
            journal.call("enqueue", value, || queue.enqueue(value));
        } else {
            journal.call("dequeue", (), || queue.dequeue());
        }
    }
    queue.working.fetch_sub(1, SeqCst);
}

fn record(has_race: bool) -> (String, Overlap) {
    let (queue, recorder) = (Queue::new(has_race), Recorder::new());
    let mut journals: Vec<Journal> = (0..THREADS).map(|_| recorder.journal()).collect();
    thread::scope(|scope| {
        for (client, journal) in journals.iter_mut().enumerate() {
            let queue = &queue;
            scope.spawn(move || work(queue, journal, client));
        }
    });
    (recorder.history(&journals), overlap(&journals))
}

fn runs() -> usize {
    std::env::var("FCBENCH_RUNS").ok().and_then(|runs| runs.parse().ok()).unwrap_or(100)
}

#[test]
fn a_right_queue_is_linearizable() {
    for _ in 0..runs() {
        let (history, overlap) = record(false);
        let answer = judge(history);
        assert_eq!(answer.verdict, Verdict::Yes, "{}", answer.lines);
        assert!((1..=THREADS).contains(&overlap.at_once));
        assert!(overlap.share > LEAST_OVERLAP, "{overlap:?}");
    }
}

#[test]
fn a_race_is_refuted_by_few_operations() {
    for _ in 0..runs() {
        let answer = judge(record(true).0);
        let operations = answer.lines.lines().filter(|line| line.starts_with("; event")).count();
        assert_eq!(answer.verdict, Verdict::No, "{}", answer.lines);
        assert!(0 < operations && operations <= MOST_OPERATIONS, "{}", answer.lines);
    }
}

/// A call that did not return ends with `:info`, and its thread goes on as a new process.
#[test]
fn pending_and_failed_calls() {
    let recorder = Recorder::new();
    let mut journals = [recorder.journal(), recorder.journal()];
    let timeout = AssertUnwindSafe(|| journals[1].call_on(3, "write", 7, || -> i64 { std::panic::resume_unwind(Box::new("timeout")) }));
    assert!(catch_unwind(timeout).is_err());
    let refused: Result<Value, ()> = journals[1].try_call_on(3, "cas", Value::Pair(7, 8), || Err(()));
    assert!(refused.is_err());
    let wanted = "{:process 1, :type :invoke, :f :write, :value 7, :object 3}
{:process 1, :type :info, :f :write, :value 7, :object 3}
{:process 2, :type :invoke, :f :cas, :value [7 8], :object 3}
{:process 2, :type :fail, :f :cas, :value nil, :object 3}
";
    assert_eq!(recorder.history(&journals), wanted);
}

fn message_of(panics: impl FnOnce() -> String) -> String {
    let payload = catch_unwind(AssertUnwindSafe(panics)).expect_err("it panics");
    payload.downcast_ref::<String>().cloned().or_else(|| payload.downcast_ref::<&str>().map(|text| text.to_string())).expect("a message")
}

/// Without the calls of the lost journal the history says that 7 is dequeued and was never enqueued.
#[test]
fn a_journal_that_is_not_handed_in() {
    let (recorder, other) = (Recorder::new(), Recorder::new());
    let mut kept = recorder.journal();
    let lost = catch_unwind(AssertUnwindSafe(|| {
        let mut own = recorder.journal();
        own.call("enqueue", 7, || ());
        own.call("enqueue", 8, || -> () { std::panic::resume_unwind(Box::new("a fault of the thread")) });
    }));
    assert!(lost.is_err());
    kept.call("dequeue", (), || 7);
    let journals = [kept];
    assert_eq!(message_of(|| recorder.history(&journals)), "3 events are missing: a journal is missing, or this recorder has already made a history");
    assert_eq!(message_of(|| other.history(&journals)), "a journal of another recorder was handed in");
}

/// The reply of a function that puts a value in is its argument, even if the call returns nothing.
#[test]
fn replies_of_calls_that_give_nothing() {
    let recorder = Recorder::new();
    let mut journal = recorder.journal();
    for (object, function) in (0..).zip(["enqueue", "push", "insert", "write"]) {
        journal.call_on(object, function, 7, || ());
        let done: Result<(), ()> = journal.try_call_on(object, function, 8, || Ok(()));
        assert!(done.is_ok());
    }
    journal.call_on(4, "acquire", (), || ());
    journal.call_on(4, "release", (), || ());
    let text = recorder.history(&[journal]);
    for (object, function) in ["enqueue", "push", "insert", "write"].iter().enumerate() {
        for value in [7, 8] {
            let reply = format!("{{:process 0, :type :ok, :f :{function}, :value {value}, :object {object}}}\n");
            assert!(text.contains(&reply), "{text}");
        }
    }
    assert_eq!(text.matches(":value nil").count(), 4, "{text}");
    let answer = judge(&text);
    assert!(answer.lines.starts_with("yes: 10 operations"), "{answer}");
}

/// A reply that is not the argument, as a length, is refused. Without it the history would be a no.
#[test]
fn a_reply_that_is_not_the_argument() {
    let recorder = Recorder::new();
    let (mut journal, mut values) = (recorder.journal(), Vec::new());
    let mut enqueue = |value| {
        values.push(value);
        values.len()
    };
    journal.call("enqueue", 7, || {
        enqueue(7);
    });
    assert_eq!(journal.try_call("enqueue", 8, || Ok::<usize, ()>(enqueue(8))), Ok(2));
    let wanted = "enqueue replied 2 and not its argument 8: let the call give nothing";
    assert_eq!(message_of(|| recorder.history(&[journal])), wanted);
}

/// A recorder makes one history: the journals of the second round are not all that it gave out.
#[test]
fn a_recorder_of_two_rounds() {
    let recorder = Recorder::new();
    let round = || {
        let mut journal = recorder.journal();
        journal.call("enqueue", 7, || ());
        recorder.history(&[journal])
    };
    assert!(judge(round()).is_yes());
    assert_eq!(message_of(round), "2 events are missing: a journal is missing, or this recorder has already made a history");
}

/// A pop that gives an error if the queue is empty: that is a reply. As a failure a wrong one would not be found.
#[test]
fn an_empty_queue_is_a_reply() {
    #[derive(Debug, PartialEq)]
    struct Empty;
    struct Forgetful;
    impl Forgetful {
        fn pop(&self) -> Result<i64, Empty> {
            Err(Empty)
        }
    }
    let (recorder, another, queue) = (Recorder::new(), Recorder::new(), Forgetful);
    let mut journal = recorder.journal();
    journal.call("enqueue", 7, || ());
    journal.call("dequeue", (), || queue.pop().ok());
    assert!(judge(recorder.history(&[journal])).is_no());
    let mut journal = another.journal();
    journal.call("enqueue", 7, || ());
    assert_eq!(journal.try_call("dequeue", (), || queue.pop()), Err(Empty));
    assert!(judge(another.history(&[journal])).is_yes());
}

/// A call in steps, as in async code: one that timed out, one that failed, and one that returned.
#[test]
fn the_four_steps() {
    let recorder = Recorder::new();
    let mut journal = recorder.journal();
    journal.invoke(0, "enqueue", 7);
    journal.gave_up();
    journal.invoke(0, "enqueue", 8);
    journal.failed();
    journal.invoke(0, "dequeue", ());
    journal.returned(Some(7));
    journal.invoke(0, "enqueue", 9);
    journal.returned(());
    journal.invoke(0, "enqueue", 10);
    let wanted = "{:process 0, :type :invoke, :f :enqueue, :value 7, :object 0}
{:process 0, :type :info, :f :enqueue, :value 7, :object 0}
{:process 1, :type :invoke, :f :enqueue, :value 8, :object 0}
{:process 1, :type :fail, :f :enqueue, :value nil, :object 0}
{:process 1, :type :invoke, :f :dequeue, :value nil, :object 0}
{:process 1, :type :ok, :f :dequeue, :value 7, :object 0}
{:process 1, :type :invoke, :f :enqueue, :value 9, :object 0}
{:process 1, :type :ok, :f :enqueue, :value 9, :object 0}
{:process 1, :type :invoke, :f :enqueue, :value 10, :object 0}
{:process 1, :type :info, :f :enqueue, :value 10, :object 0}
";
    let mut journals = [journal];
    let text = recorder.history(&journals);
    assert_eq!(text, wanted);
    assert!(judge(text).is_yes());
    // Written as failed, the call that timed out makes a no of it.
    assert!(judge(wanted.replace(":type :info, :f :enqueue, :value 7", ":type :fail, :f :enqueue, :value 7")).is_no());
    journals[0].gave_up();
    let after = || {
        journals[0].failed();
        String::new()
    };
    assert_eq!(message_of(after), "no call is outstanding");
}

/// Why a store did not enqueue.
enum Refusal {
    Closed,
    TimedOut,
}

/// A store that refuses its first call, and times out in the second one, which happens.
#[derive(Default)]
struct Store {
    calls: usize,
    values: VecDeque<i64>,
}

impl Store {
    fn enqueue(&mut self, value: i64) -> Result<(), Refusal> {
        self.calls += 1;
        if self.calls == 1 {
            return Err(Refusal::Closed);
        }
        self.values.push_back(value);
        if self.calls == 2 {
            return Err(Refusal::TimedOut);
        }
        Ok(())
    }
}

#[test]
fn a_store_that_refuses_and_times_out() {
    let (recorder, mut store) = (Recorder::new(), Store::default());
    let mut journal = recorder.journal();
    for _ in 0..3 {
        journal.invoke(0, "enqueue", 8);
        match store.enqueue(8) {
            Ok(()) => journal.returned(()),
            Err(Refusal::Closed) => journal.failed(), // it definitely did not happen
            Err(Refusal::TimedOut) => journal.gave_up(), // it may have happened
        }
    }
    for _ in 0..3 {
        journal.call("dequeue", (), || store.values.pop_front());
    }
    let text = recorder.history(&[journal]);
    let ends = [":fail", ":info", ":ok"].map(|end| text.matches(&format!(":type {end}, :f :enqueue")).count());
    assert_eq!(ends, [1; 3], "{text}");
    let answer = judge(&text);
    assert!(answer.is_yes(), "{answer}");
}

#[derive(Debug, PartialEq)]
struct Job(String);

impl Reply for Job {
    fn value(&self) -> Value {
        Value::number(self.0.len())
    }
}

impl From<Job> for Value {
    fn from(job: Job) -> Value {
        job.value()
    }
}

/// Replies that are no numbers, and are not copied.
#[test]
fn replies_of_other_types() {
    let recorder = Recorder::new();
    let mut journal = recorder.journal();
    let mut jobs = VecDeque::new();
    journal.call("enqueue", Job("seven".to_string()), || jobs.push_back(Job("seven".to_string())));
    assert_eq!(journal.call("dequeue", (), || jobs.pop_front()), Some(Job("seven".to_string())));
    let names = || vec!["one".to_string()];
    let got = journal.call_as(1, "read", (), names, |names| names.first().map_or(Value::Nil, |name| Value::number(name.len())));
    assert_eq!(got, names());
    let boxed: Box<u32> = journal.call_on(1, "read", (), || Box::new(3));
    assert_eq!(*boxed, 3);
    let text = recorder.history(&[journal]);
    let values: Vec<&str> = text.lines().filter(|line| line.contains(":type :ok")).filter_map(|line| line.split(":value ").nth(1)).collect();
    assert_eq!(values, ["5, :object 0}", "5, :object 0}", "3, :object 1}", "3, :object 1}"]);
}

/// It is not `Copy`, since it has a name.
#[derive(Debug, PartialEq)]
struct Task {
    id: u64,
    name: String,
}

#[derive(Default)]
struct Tasks(Mutex<VecDeque<Task>>);

impl Tasks {
    fn enqueue(&self, task: Task) {
        self.0.lock().unwrap().push_back(task);
    }

    fn dequeue(&self) -> Option<Task> {
        self.0.lock().unwrap().pop_front()
    }
}

/// A type without traits: the call says what is written.
#[test]
fn values_made_in_the_call() {
    let (recorder, queue) = (Recorder::new(), Tasks::default());
    let mut journal = recorder.journal();
    for _ in 0..2 {
        let job = Task { id: 7, name: "seven".to_string() };
        journal.call_as(0, "enqueue", Value::number(job.id), || queue.enqueue(job), |_| Value::Nil);
        journal.call_as(0, "dequeue", (), || queue.dequeue(), |job| job.as_ref().map_or(Value::Nil, |job| Value::number(job.id)));
    }
    let text = recorder.history(&[journal]);
    assert_eq!(text.matches(":value 7").count(), 6, "{text}");
    assert!(judge(&text).is_yes());
}

#[test]
fn a_map() {
    let recorder = Recorder::new();
    let mut journal = recorder.journal();
    let mut map = BTreeMap::new();
    let (k, v) = (1i64, 2i64);
    journal.call("put", Value::pair(k, v), || map.insert(k, v));
    journal.call("get", k, || map.get(&k).copied());
    journal.call("del", k, || map.remove(&k));
    journal.call("get", k, || map.get(&k).copied());
    let answer = judge(recorder.history(&[journal]));
    assert!(answer.lines.starts_with("yes: 4 operations, 1 objects\nmap: "), "{answer}");
}

struct Register(AtomicI64);

impl Register {
    fn swap(&self, expected: i64, new: i64) -> bool {
        self.0.compare_exchange(expected, new, SeqCst, SeqCst).is_ok()
    }
}

/// A compare-and-set replies its pair if it swapped, else `false`.
#[test]
fn a_compare_and_set() {
    let recorder = Recorder::new();
    let mut journal = recorder.journal();
    let register = Register(AtomicI64::new(0));
    journal.call("write", 1, || register.0.store(1, SeqCst));
    for (expected, new) in [(1, 2), (1, 3)] {
        let pair = Value::pair(expected, new);
        journal.call("cas", pair, || register.swap(expected, new));
    }
    journal.call("read", (), || register.0.load(SeqCst));
    let text = recorder.history(&[journal]);
    assert!(text.contains(":type :ok, :f :cas, :value [1 2]") && text.contains(":type :ok, :f :cas, :value false"), "{text}");
    let answer = judge(&text);
    assert!(answer.lines.starts_with("yes: 4 operations"), "{answer}");
}

#[test]
fn numbers_of_each_type() {
    let seven = Value::Number(7);
    assert_eq!([Value::from(7i8), Value::from(7i16), Value::from(7i32), Value::from(7i64)], [seven; 4]);
    assert_eq!([Value::from(7u8), Value::from(7u16), Value::from(7u32), Value::from(Some(7))], [seven; 4]);
    assert_eq!([Value::from(7u64), Value::from(7usize), Value::from(7isize), Value::from(7i128), Value::from(7u128)], [seven; 5]);
    assert_eq!([Some(7u64).value(), 7usize.value(), 7i128.value(), None::<usize>.value()], [seven, seven, seven, Value::Nil]);
    assert_eq!([Value::number(7u64), Value::number(7usize), Value::number(7isize), Value::number(7i128)], [seven; 4]);
    assert_eq!(Value::pair(u64::from(1u8), 2usize), Value::Pair(1, 2));
    for message in [message_of(|| Value::number(u64::MAX).to_string()), message_of(|| Value::from(i128::MIN).to_string())] {
        assert_eq!(message, "a number does not fit in i64");
    }
}

/// Only a reply that says so says that nothing was there.
#[test]
fn a_reply_that_is_not_given() {
    for (function, argument) in [("put", Value::Pair(1, 2)), ("del", Value::Number(1)), ("get", Value::Number(1)), ("dequeue", Value::Nil)] {
        let recorder = Recorder::new();
        let mut journal = recorder.journal();
        journal.call(function, argument, || ());
        let said = message_of(|| recorder.history(&[journal]));
        assert_eq!(said, format!("{function} was given no reply: None says that nothing was there"));
    }
}

/// Functions whose reply is a truth value, a number, or nothing.
#[test]
fn sets_counters_and_locks() {
    let recorder = Recorder::without_yields();
    let mut journal = recorder.journal();
    for (function, reply) in [("add", true), ("add", false), ("contains", true), ("remove", true)] {
        journal.call(function, 5, || reply);
    }
    journal.call_on(1, "fetch-add", 2, || 0);
    journal.call_on(1, "get-count", (), || 2);
    journal.call_on(2, "lock", 7, || ());
    journal.call_on(2, "unlock", 7, || ());
    journal.call_on(3, "assoc", Value::pair(1, 10), || ());
    journal.call_on(3, "put-if-absent", Value::pair(1, 11), || false);
    journal.call_on(3, "replace", Value::triple(1, 10, 12), || true);
    journal.call_on(3, "dissoc", 1, || ());
    let text = recorder.history(&[journal]);
    assert!(text.contains(":f :replace, :value [1 10 12], :object 3"), "{text}");
    let answer = judge(&text);
    assert!(answer.lines.starts_with("yes: 12 operations, 4 objects"), "{answer}");
}

/// Put-if-absent twice on one key, and a fetch-and-add.
#[test]
fn calls_that_are_known_when_they_returned() {
    let recorder = Recorder::without_yields();
    let mut journal = recorder.journal();
    journal.invoke(0, "put", Value::pair(1, 5));
    journal.returned_as("put", Value::pair(1, 5), Value::Nil);
    journal.invoke(0, "put", Value::pair(1, 6));
    journal.returned_as("get", 1, 5);
    journal.call_on(1, "write", 3, || ());
    journal.invoke(1, "cas", Value::pair(0, 1));
    journal.returned_as("cas", Value::pair(3, 4), true);
    let wanted = "{:process 0, :type :invoke, :f :put, :value [1 5], :object 0}
{:process 0, :type :ok, :f :put, :value nil, :object 0}
{:process 0, :type :invoke, :f :get, :value 1, :object 0}
{:process 0, :type :ok, :f :get, :value 5, :object 0}
{:process 0, :type :invoke, :f :write, :value 3, :object 1}
{:process 0, :type :ok, :f :write, :value 3, :object 1}
{:process 0, :type :invoke, :f :cas, :value [3 4], :object 1}
{:process 0, :type :ok, :f :cas, :value [3 4], :object 1}
";
    let text = recorder.history(&[journal]);
    assert_eq!(text, wanted);
    assert!(judge(text).is_yes());
}

/// Of five calls the second and third overlap, and the fourth and the one that is pending.
#[test]
fn overlapping_calls() {
    let recorder = Recorder::new();
    let (mut one, mut other) = (recorder.journal(), recorder.journal());
    one.call("enqueue", 1, || ());
    one.invoke(0, "enqueue", 2);
    other.call("enqueue", 3, || one.returned(()));
    one.invoke(0, "enqueue", 4);
    other.invoke(0, "enqueue", 5);
    assert_eq!(overlap(&[one, other]), Overlap { share: 0.8, at_once: 2 });
    assert_eq!(overlap(&[]), Overlap { share: 0.0, at_once: 0 });
}
