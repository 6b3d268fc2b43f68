//! `import` with its options, and the names of what it made: a byte with the options, then the
//! history, the form of an option, and lines of an answer.
#![no_main]

use fuzz::{input, text, texts};
use import::{Form, Imported, Names, Options, Replies, form_of, import, with_names};

fn options(bits: u8, form: Option<Form>) -> Options {
    let has = |bit: u8| bits & (1 << bit) != 0;
    Options {
        is_independent: has(0),
        checks_owners: has(1),
        has_owners: has(2),
        is_by_time: has(3),
        replies: match (has(4), &form) {
            (true, Some(errors)) => Replies::of(errors.clone()),
            (true, None) => Replies::usual(),
            _ => Replies::default(),
        },
        initial: form.filter(|_| has(5)),
    }
}

/// The table is read as it was written, all lines can be shown, and the text is taken as it is.
fn check(made: &Imported) {
    let table = made.names.to_string();
    assert_eq!(Names::read(&table).map(|it| it.to_string()), Ok(table.clone()));
    let lines = made.warnings.iter().chain(&made.notes);
    let is_shown = |line: &String| !line.contains(|it: char| it.is_control());
    assert!(
        lines.clone().all(is_shown) && !table.contains(|it: char| it.is_control() && it != '\n')
    );
    let again = import(&made.text, &Options::default()).expect("it is a history");
    assert_eq!(again.text, made.text);
    assert_eq!(again.notes, [""; 0]);
}

/// # Safety
///
/// As of `fuzz::input`.
#[unsafe(no_mangle)]
pub unsafe extern "C" fn LLVMFuzzerTestOneInput(data: *const u8, length: usize) -> i32 {
    // SAFETY: libFuzzer calls it.
    let Some((bits, rest)) = unsafe { input(data, length) }.split_first() else { return 0 };
    let all = texts(rest);
    let Some(history) = text(&all, 0) else { return 0 };
    let made = import(history, &options(*bits, text(&all, 1).and_then(form_of)));
    let names = match &made {
        Ok(made) => {
            check(made);
            Some(made.names.clone())
        }
        Err(_) => Names::read(history).ok(),
    };
    if let (Some(names), Some(answer)) = (names, text(&all, 2)) {
        with_names(&names, answer);
    }
    0
}
