//! Calls the library: a yes, a no, a malformed text, and a buffer that is too small.

use fcbench::{check, find, judge, judge_into, judge_with_steps, refute, refute_with_steps, verify, Verdict, STEPS};

const QUEUE: &str = "{:process 0, :type :invoke, :f :enqueue, :value 1}
{:process 0, :type :ok, :f :enqueue, :value 1}
{:process 0, :type :invoke, :f :dequeue}
{:process 0, :type :ok, :f :dequeue, :value 1}
";
const YES_LINES: &str = "yes: 2 operations, 1 objects\nqueue: 1 objects, 2 operations\n";

/// The register contains 2 where 1 is read.
const OLD_READ: &str = "{:process 0, :type :invoke, :f :write, :value 1}
{:process 0, :type :ok, :f :write, :value 1}
{:process 0, :type :invoke, :f :write, :value 2}
{:process 0, :type :ok, :f :write, :value 2}
{:process 0, :type :invoke, :f :read}
{:process 0, :type :ok, :f :read, :value 1}
";

#[test]
fn a_yes() {
    let answer = judge(QUEUE);
    assert_eq!((answer.verdict, answer.lines.as_str()), (Verdict::Yes, YES_LINES));
    let found = find(QUEUE);
    assert_eq!((found.verdict, found.lines.as_str()), (Verdict::Yes, "{:object 0, :order [0 2]}\n"));
    assert_eq!(check(QUEUE, &found.lines).verdict, Verdict::Yes);
    assert_eq!(verify(QUEUE, &found.lines), answer);
    assert_eq!(verify(QUEUE, "").lines, "; object 0: open\n");
}

#[test]
fn a_no() {
    let answer = judge(OLD_READ);
    assert_eq!(answer.verdict, Verdict::No);
    assert!(answer.lines.starts_with("; object 0: impossible\n"));
    let reason = answer.lines.lines().last().expect("a reason").trim_start_matches("; ");
    assert_eq!(refute(OLD_READ, reason).verdict, Verdict::No);
    assert_eq!(refute(QUEUE, reason).verdict, Verdict::Undecided);
    assert_eq!(verify(OLD_READ, reason).verdict, Verdict::No);
    assert_eq!(verify(OLD_READ, find(OLD_READ).lines), answer);
    let refused = check(QUEUE, "");
    assert_eq!((refused.verdict, refused.lines.as_str()), (Verdict::No, "no: C1 object 0 has no certificate\n"));
}

/// The reasons of a judgement, as `refute` reads them.
#[test]
fn the_reasons_of_a_no() {
    let two = format!("{OLD_READ}{}", OLD_READ.replace(":process 0", ":process 1").replace('}', ", :object 1}"));
    let answer = judge_with_steps(&two, STEPS);
    let reasons = answer.reasons();
    assert!(answer.is_no() && !answer.is_yes(), "{answer}");
    assert_eq!(reasons.lines().filter(|line| line.starts_with("{:object ")).count(), 2, "{reasons}");
    assert_eq!(reasons.lines().count(), 2, "{reasons}");
    assert!(refute(&two, &reasons).is_no());
    assert!(refute_with_steps(&two, &reasons, STEPS).is_no());
    assert!(refute(QUEUE, judge(OLD_READ).reasons()).verdict == Verdict::Undecided);
    assert_eq!(judge(QUEUE).reasons(), "");
}

#[test]
fn an_answer_in_a_message() {
    assert!(judge(QUEUE).is_yes());
    assert_eq!(judge(QUEUE).to_string(), format!("yes\n{YES_LINES}"));
    assert!(judge(OLD_READ).to_string().starts_with("no\n; object 0: impossible\n"));
    assert_eq!(judge("{:process 0").to_string(), "malformed\nmalformed history: E2 at byte 11\n");
    assert!(refute(QUEUE, "").to_string().starts_with("undecided\n"));
}

/// A history without a map is a yes of no operations.
#[test]
fn an_empty_history() {
    assert_eq!(judge("").lines, "yes: 0 operations, 0 objects\n");
}

#[test]
fn a_malformed_text() {
    let answer = judge("{:process 0");
    assert_eq!((answer.verdict, answer.lines.as_str()), (Verdict::Malformed, "malformed history: E2 at byte 11\n"));
}

#[test]
fn a_buffer_too_small() {
    let mut out = [b'-'; 10];
    assert_eq!(judge_into(QUEUE.as_bytes(), STEPS, &mut out), (Verdict::Yes, YES_LINES.len()));
    assert_eq!(&out, b"yes: 2 ope");
    assert_eq!(judge_into(QUEUE.as_bytes(), STEPS, &mut []), (Verdict::Yes, YES_LINES.len()));
}

/// The lines of 40 objects are longer than the room that there is at first.
#[test]
fn lines_longer_than_the_first_buffer() {
    let history: String = (0..40).map(|x| format!("{{:process {x}, :type :invoke, :f :enqueue, :value 1, :object {x}}}\n")).collect();
    let found = find(&history);
    assert_eq!((found.verdict, found.lines.lines().count()), (Verdict::Yes, 40));
    assert_eq!(check(&history, &found.lines).verdict, Verdict::Yes);
}

/// Each thread gets the answers of a call alone.
#[test]
fn several_threads_at_once() {
    let no = judge(OLD_READ).lines;
    std::thread::scope(|scope| {
        for _ in 0..4 {
            scope.spawn(|| {
                for _ in 0..100 {
                    assert_eq!(check(QUEUE, find(QUEUE).lines).lines, YES_LINES);
                    let answer = judge(OLD_READ);
                    assert!(answer.is_no() && answer.lines == no, "{answer}");
                    assert!(refute(OLD_READ, answer.reasons()).is_no());
                }
            });
        }
    });
}
