use fcbench::recorder::{overlap, Recorder};
use std::collections::VecDeque;
use std::sync::{Barrier, Mutex};
use std::thread;

#[test]
fn two_threads_share_a_queue() {
    let mut shares = 0.0; // of each round, how many of its calls overlapped another one
    for _ in 0..100 {
        let queue = Mutex::new(VecDeque::new()); // your queue
        let (recorder, begin) = (Recorder::new(), Barrier::new(2));
        let mut journals = [recorder.journal(), recorder.journal()]; // before the threads, one for each
        thread::scope(|scope| {
            for (client, journal) in (0i64..).zip(&mut journals) {
                let (queue, begin) = (&queue, &begin);
                scope.spawn(move || {
                    journal.call("dequeue", (), || {
                        begin.wait(); // both begin together, inside of their first calls
                        queue.lock().unwrap().pop_front()
                    });
                    for value in client * 100..client * 100 + 100 {
                        journal.call("enqueue", value, || queue.lock().unwrap().push_back(value));
                        journal.call("dequeue", (), || queue.lock().unwrap().pop_front());
                    }
                });
            }
        });
        shares += overlap(&journals).share;
        let history = recorder.history(&journals);
        let answer = fcbench::judge(&history);
        if !answer.is_yes() {
            std::fs::write("queue.history.edn", &history).unwrap();
            panic!("{answer}");
        }
        assert!(answer.lines.starts_with("yes: 402 operations"), "{answer}");
    }
    assert!(shares > 10.0, "only {shares} % of the calls overlapped another one");
}
