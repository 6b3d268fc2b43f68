//! Pages: five bytes with what is drawn, then the history, the lines of an answer, certificates,
//! and a table of names. Without an answer that fits, one is made of what is found.
#![no_main]

use finder::{Decision, Evidence, History, Options, decide, read_history};
use fuzz::{input, text, texts};
use import::Names;
use pages::{Asides, Drawn, Words, fault_lines, malformed_page, memory_page, orders_in};
use verdict::{Fault, Verdict};

const STEPS: Options = Options { steps: Some(500), workers: 1 };

/// No text of the input is markup: it may hold these words.
fn check(page: &str) {
    let page = page.to_ascii_lowercase();
    assert!(!page.contains("<script") && !page.contains("<zz"), "markup of the input");
}

/// What is drawn, or nothing if the first event is after the last one.
fn options(bytes: &[u8]) -> Option<pages::Options> {
    let of =
        |bit: u8, place: usize| (bytes[0] & (1 << bit) != 0).then_some(u32::from(bytes[place]));
    let to = of(2, 3).map(|to| if bytes[0] & 8 != 0 { u32::MAX - to } else { to });
    let options = pages::Options { object: of(0, 1), from: of(1, 2), to };
    (options.from.unwrap_or(0) <= to.unwrap_or(u32::MAX)).then_some(options)
}

/// The lines of an answer that fits what is found.
fn answer_to(decisions: &[Decision]) -> String {
    let line = |decision: &Decision| {
        let (object, evidence) = (decision.object, decision.to_string());
        match decision.evidence {
            Evidence::Order(_) => String::new(),
            Evidence::Open => panic!("the finder failed"),
            _ if evidence.contains(":search") && !evidence.contains(":cuts") => {
                format!("; object {object}: out of steps after 500\n")
            }
            _ => format!("; object {object}: impossible\n; {evidence}\n"),
        }
    };
    let lines: String = decisions.iter().map(line).collect();
    if lines.is_empty() { "yes: 1 operations, 1 objects".to_owned() } else { lines }
}

fn draw_found(drawn: Drawn<'_>, history: &History) {
    let decisions = decide(history, STEPS);
    let answer = answer_to(&decisions);
    let lines = answer.trim_end();
    let drawn = Drawn { lines, ..drawn };
    match Verdict::read(lines) {
        Some(Verdict::Judged(answers)) => check(&drawn.judged_page(&decisions, &answers)),
        Some(Verdict::Yes { .. }) => check(&drawn.judged_page(&decisions, &[])),
        _ => panic!("no verdict: {lines}"),
    }
}

fn draw_fault(history: &[u8], fault: Fault, lines: &str) {
    if read_history(history).is_none() {
        check(&malformed_page("a.edn", history, fault, lines));
        let _ = fault_lines(history, fault);
    }
}

fn draw(options: pages::Options, all: &[&[u8]]) {
    let lines = all.get(1).map(|it| String::from_utf8_lossy(it).into_owned()).unwrap_or_default();
    let verdict = Verdict::read(lines.strip_suffix('\n').unwrap_or(&lines));
    match verdict {
        Some(Verdict::Malformed(fault)) => return draw_fault(all[0], fault, &lines),
        Some(Verdict::NoMemory) => return check(&memory_page("a.edn", &lines)),
        _ => {}
    }
    let Some(history) = read_history(all[0]) else { return };
    let names = text(all, 3).and_then(|it| Names::read(it).ok());
    let asides = Asides::read(all[0], &history);
    let certificates = all.get(2).filter(|it| !it.is_empty());
    let drawn = Drawn {
        history: &history,
        name: "a.edn",
        certificates: certificates.map(|_| "b.edn"),
        lines: &lines,
        options,
        words: Words::new(names.as_ref(), &asides),
    };
    match (certificates.map(|it| orders_in(it)), verdict) {
        (Some(orders), Some(Verdict::No(refusal))) => {
            check(&drawn.checked_page(&orders, Some(&refusal)));
        }
        (Some(orders), Some(Verdict::Yes { .. })) => check(&drawn.checked_page(&orders, None)),
        (None, Some(Verdict::Judged(answers))) => {
            check(&drawn.judged_page(&decide(&history, STEPS), &answers));
        }
        _ => draw_found(Drawn { certificates: None, ..drawn }, &history),
    }
}

/// # Safety
///
/// As of `fuzz::input`.
#[unsafe(no_mangle)]
pub unsafe extern "C" fn LLVMFuzzerTestOneInput(data: *const u8, length: usize) -> i32 {
    // SAFETY: libFuzzer calls it.
    let Some((bytes, rest)) = unsafe { input(data, length) }.split_at_checked(5) else { return 0 };
    if let Some(options) = options(bytes) {
        draw(options, &texts(rest));
    }
    0
}
