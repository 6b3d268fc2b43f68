//! The places of malformed texts.

use pages::{malformed_page, memory_page};
use verdict::Verdict;

/// The page of a text of which this is said.
fn page(text: &str, lines: &str) -> String {
    let Some(Verdict::Malformed(fault)) = Verdict::read(lines) else {
        panic!("{lines}");
    };
    malformed_page("a.edn", text.as_bytes(), fault, lines)
}

/// What is marked on a page.
fn marks(page: &str) -> Vec<&str> {
    let parts = page.split("<mark").skip(1);
    parts.filter_map(|part| part.split_once('>')?.1.split_once("</mark>")).map(|it| it.0).collect()
}

const HISTORY: &str = "{:process 0, :type :invoke, :f :push, :value 1}
{:process :nemesis, :type :info, :f :kill}
{:process 0, :type :invoke, :f :pop}
";

#[test]
fn marks_the_token_of_a_text_that_spells_no_forms() {
    let text = "[1 \"; 007\" 007 2]";
    let page = page(text, "malformed history: E3 at byte 11");
    assert_eq!(marks(&page), ["007"]);
    assert!(page.contains("<title>malformed E3: a.edn</title>"));
    assert!(page.contains("At byte 11 stands “007”, which is no keyword"));
}

#[test]
fn marks_where_a_text_ends_and_what_is_open() {
    let page = page("{:a [1 2\n", "malformed history: E2 at byte 9");
    assert_eq!(marks(&page), ["[", "end of the text"]);
    assert!(page.contains("The text ends inside a vector, at byte 9. It was opened at byte 4"));
}

#[test]
fn marks_what_is_around_a_fault() {
    let page = page("{:a 1\n {:b 1}}", "malformed history: E7 at byte 7");
    assert_eq!(marks(&page), ["{", "{"]);
    assert!(page.contains("The map around it was opened at byte 0, in line 1."));
}

#[test]
fn marks_a_map_and_the_one_that_it_clashes_with() {
    let page = page(HISTORY, "malformed history: H5 at map 2");
    let maps: Vec<&str> = HISTORY.lines().collect();
    assert_eq!(marks(&page), [maps[2], maps[0]]);
    assert!(page.contains("Event 2 invokes an operation of process 0, and "));
    assert!(page.contains("<g class=\"cross\"><title>event 2: H5</title>"));
    assert!(page.contains("<title>nemesis kill, event 1</title>"));
}

#[test]
fn marks_a_form_and_the_first_one_for_its_object() {
    let text = "{:object 3, :order []} {:object 1, :order [{}]} {:order [1], :object 3}";
    let page = page(text, "malformed certificates: K2 at form 2");
    assert_eq!(marks(&page), ["{:order [1], :object 3}", "{:object 3, :order []}"]);
}

#[test]
fn escapes_what_a_text_has() {
    let page = page("<script>&\"\u{202e}\u{1}", "malformed history: E9 at byte 0");
    assert_eq!(marks(&page), ["&lt;script&gt;&amp;"]);
    assert!(page.contains("&quot;\\xe2\\x80\\xae\\x01"), "{page}");
    assert!(!page.contains("<script"));
}

#[test]
fn any_place_of_any_text_has_a_page() {
    for text in ["", "\"", "{", "]", "\u{e9}", "{:a", HISTORY] {
        for code in ["E1 at byte", "E2 at byte", "E8 at byte", "H1 at map", "H8 at map"] {
            for place in [0, 1, 2, 1000, usize::MAX] {
                let page = page(text, &format!("malformed history: {code} {place}"));
                assert!(page.ends_with("</html>\n"), "{text} {code} {place}");
            }
        }
    }
}

#[test]
fn a_page_says_that_memory_was_missing() {
    let page = memory_page("a.edn", "out of memory");
    assert!(page.contains("<body class=\"memory\">"));
}
