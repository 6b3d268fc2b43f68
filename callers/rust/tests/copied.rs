//! The recorder alone, copied into a test that calls only some of it, as its head says.

#[path = "../src/recorder.rs"]
mod recorder;

use recorder::Recorder;
use std::collections::VecDeque;
use std::sync::Mutex;
use std::thread;

static RECORDER: Recorder = Recorder::new();

struct Queue(Mutex<VecDeque<i64>>);

impl Queue {
    fn enqueue(&self, value: i64) {
        self.0.lock().unwrap().push_back(value);
    }

    fn dequeue(&self) -> Option<i64> {
        self.0.lock().unwrap().pop_front()
    }
}

static QUEUE: Queue = Queue(Mutex::new(VecDeque::new()));

/// Both give the history of one enqueue and one dequeue.
const TEXT: &str = "{:process 0, :type :invoke, :f :enqueue, :value 7, :object 0}
{:process 0, :type :ok, :f :enqueue, :value 7, :object 0}
{:process 0, :type :invoke, :f :dequeue, :value nil, :object 0}
{:process 0, :type :ok, :f :dequeue, :value 7, :object 0}
";

#[test]
fn the_example_at_the_head() {
    let (queue, value) = (Queue(Mutex::default()), 7);
    let recorder = Recorder::new();
    let mut journals = [recorder.journal(), recorder.journal()]; // before the threads, one for each
    let [journal, _] = &mut journals;
    thread::scope(|scope| {
        let queue = &queue;
        scope.spawn(move || {
            journal.call("enqueue", value, || queue.enqueue(value));
            journal.call("dequeue", (), || queue.dequeue());
        });
    });
    let text = recorder.history(&journals);
    assert_eq!(text, TEXT);
}

/// Threads that are not scoped: each owns its journal and hands it out at its end.
#[test]
fn a_static_recorder() {
    let mut journal = RECORDER.journal();
    let client = thread::spawn(move || {
        journal.call("enqueue", 7, || QUEUE.enqueue(7));
        journal.call("dequeue", (), || QUEUE.dequeue());
        journal
    });
    let journals = [client.join().unwrap()];
    assert_eq!(RECORDER.history(&journals), TEXT);
}

#[test]
fn a_leaked_recorder() {
    let recorder: &'static Recorder = Box::leak(Box::new(Recorder::new()));
    let queue: &'static Queue = Box::leak(Box::new(Queue(Mutex::default())));
    let client = thread::spawn(move || {
        let mut journal = recorder.journal();
        journal.call("enqueue", 7, || queue.enqueue(7));
        journal.call("dequeue", (), || queue.dequeue());
        journal
    });
    let journals = [client.join().unwrap()];
    assert_eq!(recorder.history(&journals), TEXT);
}
