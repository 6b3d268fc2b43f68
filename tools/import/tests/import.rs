//! Imports histories as tools write them, and tells names back.

use import::{Form, Names, Options, Replies, form_of, import};

fn imported(text: &str) -> (String, String) {
    let made = import(text, &Options::default()).unwrap_or_else(|refused| panic!("{refused}"));
    (made.text, made.names.to_string())
}

fn refused(text: &str, options: &Options) -> String {
    import(text, options).expect_err("it is refused").to_string()
}

#[test]
fn a_store_of_jepsen() {
    let text = "
#jepsen.history.Op{:index 0, :time 10, :type :invoke, :process 0, :f :write, :value [\"x\" :a]}
{:type :info, :f :start, :value [:isolated {\"n1\" #{\"n2\"}}], :process :nemesis, :time 1.5, :index 1}
{:type :ok, :process 0, :f :write, :value [\"x\" :a]}
{:type :invoke, :process 1, :f :read, :value [\"y\" nil]}
{:type :info, :process 1, :f :read, :value [\"y\" nil], :error :timeout}
{:type :invoke, :process 2, :f :cas, :value [\"x\" [:a \"b\"]]}
{:type :ok, :process 2, :f :cas, :value [\"x\" true]}
";
    let wanted = "\
{:process 0, :type :invoke, :f :write, :value 0, :object 0, :time 10, :index 0}
{:process :nemesis, :f :start, :index 1}
{:process 0, :type :ok, :f :write, :value 0, :object 0}
{:process 1, :type :invoke, :f :read, :value nil, :object 1}
{:process 1, :type :info, :f :read, :value nil, :object 1}
{:process 2, :type :invoke, :f :cas, :value [0 1], :object 0}
{:process 2, :type :ok, :f :cas, :value [0 1], :object 0}
";
    let names = "{:object 0, :is \"x\"}\n{:object 1, :is \"y\"}\n{:value 0, :is :a}\n{:value 1, :is \"b\"}\n";
    assert_eq!(imported(text), (wanted.to_owned(), names.to_owned()));
    assert_eq!(imported(&format!("[{text}]")), (wanted.to_owned(), names.to_owned()));
}

#[test]
fn locks_processes_and_numbers() {
    let text = "{:process \"n1\", :type :invoke, :f :lock, :value \"client-1\"}
{:process \"n1\", :type :ok, :f :lock, :value true}
{:process \"n1\", :type :invoke, :f :unlock}
{:process \"n1\", :type :ok, :f :unlock, :value \"OK\"}
{:process 0, :type :invoke, :f :insert, :value 5, :object 3}
{:process 0, :type :ok, :f :insert, :object 3}
{:process 4, :type :invoke, :f :enqueue, :value 9, :object :jobs}
{:process 4, :type :ok, :f :enqueue, :value 9, :object :jobs}";
    let wanted = "\
{:process 1, :type :invoke, :f :acquire, :value nil, :object 0}
{:process 1, :type :ok, :f :acquire, :value nil, :object 0}
{:process 1, :type :invoke, :f :release, :value nil, :object 0}
{:process 1, :type :ok, :f :release, :value nil, :object 0}
{:process 0, :type :invoke, :f :insert, :value 5, :object 3}
{:process 0, :type :ok, :f :insert, :value 5, :object 3}
{:process 4, :type :invoke, :f :enqueue, :value 9, :object 1}
{:process 4, :type :ok, :f :enqueue, :value 9, :object 1}
";
    assert_eq!(imported(text).0, wanted);
    assert_eq!(imported(text).1, "{:object 1, :is :jobs}\n{:process 1, :is \"n1\"}\n");
}

#[test]
fn lines_of_json() {
    let text = "{\"process\": 0, \"type\": \"invoke\", \"f\": \"put\", \"value\": [\"k\", \"v\"]}
{\"process\": 0, \"type\": \"ok\", \"f\": \"put\", \"value\": null}

{\"process\": 1, \"type\": \"invoke\", \"f\": \"get\", \"value\": \"k\"}
{\"process\": 1, \"type\": \"ok\", \"f\": \"get\", \"value\": \"v\"}
";
    let wanted = "\
{:process 0, :type :invoke, :f :put, :value [0 1], :object 0}
{:process 0, :type :ok, :f :put, :value nil, :object 0}
{:process 1, :type :invoke, :f :get, :value 0, :object 0}
{:process 1, :type :ok, :f :get, :value 1, :object 0}
";
    assert_eq!(imported(text).0, wanted);
}

#[test]
fn json_in_one_array() {
    let lines = "[
  {\"process\": 0, \"type\": \"invoke\", \"f\": \"push\",
   \"value\": 5},
  {\"process\": 0, \"type\": \"ok\", \"f\": \"push\", \"value\": 5}
]\n";
    let wanted = "\
{:process 0, :type :invoke, :f :push, :value 5, :object 0}
{:process 0, :type :ok, :f :push, :value 5, :object 0}
";
    assert_eq!(imported(lines).0, wanted);
    let other = lines.replace("\"ok\", \"f\": \"push\"", "\"ok\", \"f\": \"pop\"");
    let said = "line 4: operation 1: :pop cannot complete :push, operation 0";
    assert_eq!(refused(&other, &Options::default()), said);
    let said = refused(&lines.replace("\"ok\",", "ok,"), &Options::default());
    assert!(said.starts_with("line 4: no value of JSON; expected are maps"), "{said}");
}

/// A call that failed with this error.
fn failed(f: &str, argument: &str, error: &str) -> String {
    format!(
        "{{:process 0, :type :invoke, :f {f}, :value {argument}}} {{:process 0, :type :fail, :f {f}, :value {argument}, {error}}}\n"
    )
}

/// The last line of a history of one call that failed with this error, and what is warned of it.
fn read_with(replies: Replies, f: &str, argument: &str, error: &str) -> (String, Option<String>) {
    let options = Options { replies, ..Options::default() };
    let mut made = import(&failed(f, argument, error), &options).expect("a history");
    (made.text.lines().last().expect("a line").to_owned(), made.warnings.pop())
}

fn set(text: &str) -> Replies {
    Replies::of(form_of(text).expect("a form"))
}

#[test]
fn failed_operations_can_be_replies() {
    for error in [
        ":error :empty",
        ":error \"empty\"",
        ":error \"EMPTY\"",
        ":error [:empty \"jobs\"]",
        ":error (:empty)",
        ":error :not-found",
        ":error \"not found\"",
        ":error NOT_FOUND",
        ":value :empty",
    ] {
        for (f, argument, reply) in [
            (":dequeue", "nil", "nil"),
            (":pop", "nil", "nil"),
            (":extract-min", "nil", "nil"),
            (":read", "nil", "nil"),
            (":get", "7", "nil"),
            (":del", "7", "nil"),
            (":cas", "[1 2]", "false"),
        ] {
            if argument != "nil" && error.starts_with(":value") {
                continue;
            }
            let call = failed(f, argument, error).replace(":value nil, :value", ":value");
            let options = Options { replies: Replies::usual(), ..Options::default() };
            let made = import(&call, &options).expect("a history");
            let line = format!("{{:process 0, :type :ok, :f {f}, :value {reply}, :object 0}}\n");
            assert!(made.text.ends_with(&line), "{call}: {}", made.text);
            assert_eq!(made.warnings, [""; 0], "{call}");
        }
    }
    let ok = |it: (String, Option<String>)| it.0.contains(":type :ok") && it.1.is_none();
    assert!(ok(read_with(set(":gone"), ":dequeue", "nil", ":error :gone")));
    assert!(ok(read_with(set("#{:gone \"no job\"}"), ":pop", "nil", ":error \"no job\"")));
    assert!(ok(read_with(set("{:code 5}"), ":get", "7", ":error {:code 5}")));
    assert!(ok(read_with(set("#{:not-equal}"), ":cas", "[1 2]", ":error [:not-equal 3]")));
    for error in [":other 1", ":error nil"] {
        assert!(ok(read_with(set("nil"), ":cas", "[1 2]", error)));
        assert!(ok(read_with(set("#{:gone nil}"), ":dequeue", "nil", error)));
    }
}

#[test]
fn other_failed_operations_stay_failed() {
    let usual = Replies::usual;
    for (replies, f, argument, error) in [
        (usual(), ":dequeue", "nil", ":error :timeout"),
        (usual(), ":dequeue", "nil", ":other 1"),
        (usual(), ":enqueue", "7", ":error :empty"),
        (usual(), ":put", "[7 8]", ":error :not-found"),
        (usual(), ":cas", "[1 2]", ":error :timeout"),
        (usual(), ":cas", "[1 2]", ":error [:connect \"reset\"]"),
        (set("nil"), ":read", "nil", ":other 1"),
        (set("nil"), ":get", "7", ":other 1"),
        (set("nil"), ":dequeue", "nil", ":error \"nil\""),
        (set("\"nil\""), ":dequeue", "nil", ":other 1"),
        (set(":gone"), ":get", ":gone", ":other 1"),
        (Replies::default(), ":dequeue", "nil", ":error :closed"),
    ] {
        let (line, warning) = read_with(replies, f, argument, error);
        assert!(line.contains(":type :fail"), "{f} {error}: {line}");
        assert_eq!(warning, None, "{f} {error}");
    }
}

#[test]
fn what_says_that_nothing_was_there_and_is_left_out_is_counted() {
    let warned = |text: &str, replies: Replies| {
        let options = Options { replies, ..Options::default() };
        import(text, &options).expect("a history").warnings.concat()
    };
    let empty = failed(":dequeue", "nil", ":error :empty");
    let text = format!("{}{empty}{empty}", failed(":pop", "nil", ":error [:empty 1]"))
        .replace(":f :pop", ":object 1, :f :pop");
    let then = "it makes each a reply of nil (of a :cas: false), so that wrong ones are found";
    let said = "left out: 2 failed :dequeue with :empty (first in line 2), 1 failed :pop with [:empty 1] (first in line 1)";
    let wanted = format!("{said}. If this was the store's answer, use --fail-is-reply: {then}");
    assert_eq!(warned(&text, Replies::default()), wanted);
    assert_eq!(warned(&text, Replies::usual()), "");
    let reply = failed(":dequeue", "nil", ":error \"Empty reply from server\"");
    let said = "left out: 1 failed :dequeue with \"Empty reply from server\" (first in line 1)";
    for (replies, option) in [
        (Replies::default(), "--fail-is-reply='\"Empty reply from server\"'"),
        (Replies::usual(), "--fail-is-reply='#{:empty :not-found \"Empty reply from server\"}'"),
    ] {
        let wanted = format!("{said}. If this was the store's answer, use {option}: {then}");
        assert_eq!(warned(&reply, replies), wanted);
    }
    let exhausted = failed(":dequeue", ":exhausted", ":other 1").replacen(":exhausted", "nil", 1);
    let said = warned(&exhausted, Replies::default());
    assert!(said.contains("1 failed :dequeue with :exhausted"), "{said}");
    let many: String =
        (0..7).map(|it| failed(":read", "nil", &format!(":error \"no-such {it}\""))).collect();
    assert!(warned(&many, Replies::default()).contains("(first in line 5), and others. If "));
}

/// A store that refuses each swap, or one of every value, gets a yes where these are left out.
#[test]
fn failed_swaps_that_are_left_out_are_counted() {
    let warned = |text: &str, replies: Replies| {
        let options = Options { replies, ..Options::default() };
        import(text, &options).expect("a history").warnings.concat()
    };
    let (with, without) =
        (failed(":cas", "[1 2]", ":error :did-not-match"), failed(":cas", "[1 2]", ":other 1"));
    let then = "it makes each a reply of nil (of a :cas: false), so that wrong ones are found";
    let text = format!("{with}{without}{without}");
    let said = "left out: 2 failed :cas without :error (first in line 2), 1 failed :cas with :did-not-match (first in line 1)";
    let wanted = format!(
        "{said}. If this was the store's answer, use --fail-is-reply='#{{nil :did-not-match}}': {then}"
    );
    assert_eq!(warned(&text, Replies::default()), wanted);
    assert_eq!(warned(&text, set("#{nil :did-not-match}")), "");
    let wanted = format!(
        "left out: 1 failed :cas with :did-not-match (first in line 1). If this was the store's answer, use --fail-is-reply=':did-not-match': {then}"
    );
    assert_eq!(warned(&with, Replies::default()), wanted);
    let wanted = wanted.replace("':did-not-match'", "'#{:empty :not-found :did-not-match}'");
    assert_eq!(warned(&with, Replies::usual()), wanted);
    assert!(warned(&without, Replies::default()).contains("use --fail-is-reply='nil': "));
    let each: String =
        (0..300).map(|it| failed(":cas", "[1 2]", &format!(":error [:found {it}]"))).collect();
    let said = warned(&each, Replies::default());
    assert!(
        said.starts_with("left out: 300 failed :cas with [:found 0] (first in line 1). If "),
        "{said}"
    );
    assert!(said.contains("use --fail-is-reply=':found': "), "{said}");
    let each: String =
        (0..300).map(|it| failed(":cas", "[1 2]", &format!(":error \"found {it}\""))).collect();
    let said = warned(&each, Replies::default());
    assert!(said.contains(", and others. If ") && said.len() < 1_000, "{said}");
}

#[test]
fn an_initial_value_of_no_register_is_warned_of() {
    let initial = Options { initial: Some(Form::Int(0)), ..Options::default() };
    let warnings = |text: &str| import(text, &initial).expect("a history").warnings;
    let queue = "{:process 0, :type :invoke, :f :dequeue} {:process 0, :type :ok, :f :dequeue}";
    assert_eq!(
        warnings(queue),
        ["--initial writes nothing: the history has no register that it names"]
    );
    assert_eq!(warnings(&queue.replace("dequeue", "read")), [""; 0]);
}

#[test]
fn more_objects_than_a_judgement_takes_are_warned_of() {
    let of = |count: u32| -> String {
        let put = |it| format!("{{:process 0, :type :invoke, :f :read, :value [:k{it} nil]}}\n");
        let got = |it| format!("{{:process 0, :type :ok, :f :read, :value [:k{it} nil]}}\n");
        (0..count).map(|it| put(it) + &got(it)).collect()
    };
    let most = import(&of(65_536), &Options::default()).expect("a history");
    assert_eq!(most.warnings, [""; 0]);
    let more = import(&of(65_537), &Options::default()).expect("a history");
    assert_eq!(more.warnings, ["there are 65537 objects, more than judge takes: use split"]);
    assert!(more.text.ends_with(":value nil, :object 65536}\n"));
}

#[test]
fn options() {
    let text = "{:process 0, :type :invoke, :f :read} {:process 0, :type :ok, :f :read, :value 0}";
    let initial = Options { initial: Some(Form::Int(0)), ..Options::default() };
    let made = import(text, &initial).expect("a history");
    let wanted = "{:process 1, :type :invoke, :f :write, :value 0, :object 0}\n{:process 1, :type :ok, :f :write, :value 0, :object 0}\n";
    assert!(made.text.starts_with(wanted), "{}", made.text);
    assert_eq!(made.names.to_string(), "{:before 2}\n");

    let text = "{:process 0, :type :invoke, :f :read, :object :x} {:process 0, :type :ok, :f :read, :value 5}
{:process 0, :type :invoke, :f :dequeue, :object :y} {:process 0, :type :ok, :f :dequeue}";
    let initial_of = |text| Options { initial: form_of(text), ..Options::default() };
    let made = import(text, &initial_of("{:x 5, :z 6}")).expect("a history");
    assert!(
        made.text.starts_with("{:process 1, :type :invoke, :f :write, :value 5, :object 0}\n"),
        "{}",
        made.text
    );
    assert_eq!(made.names.before, 2);
    let said = "line 2: operation 2: object :y has an initial value, but is not a register";
    assert_eq!(refused(text, &initial_of("{:y 5}")), said);
    let said = "line 1: --initial names \"x\", and the history has no such object";
    assert_eq!(refused(text, &initial_of("{\"x\" 5}")), said);
    let said = "line 1: operation 0: 1.5 cannot be an initial value, which is an integer, string or keyword";
    assert_eq!(refused(text, &initial_of("1.5")), said);

    let text = "{:process 0, :type :invoke, :f :write, :value 18446744073709551615N}
{:process 0, :type :ok, :f :write, :value +18446744073709551615}";
    assert_eq!(imported(text).1, "{:value 0, :is 18446744073709551615}\n");

    let text = "{:process 0, :type :invoke, :f :write, :value [1 2]} {:process 0, :type :ok, :f :write, :value [1 2]}";
    let independent = Options { is_independent: true, ..Options::default() };
    assert!(import(text, &independent).expect("a history").text.contains(":value 2, :object 1"));

    let text =
        "{:process 0, :type :invoke, :f :lock, :value \"a\"} {:process 0, :type :ok, :f :lock}
{:process 0, :type :invoke, :f :unlock, :value \"b\"}";
    let owners = Options { checks_owners: true, ..Options::default() };
    assert_eq!(
        refused(text, &owners),
        "line 2: operation 2: it releases owner \"b\", but acquired owner \"a\""
    );
    assert!(import(text, &Options::default()).is_ok());
}

/// Each history, and the sentence for it.
#[test]
fn what_cannot_be_mapped_is_named_with_its_line() {
    let write = "{:process 0, :type :invoke, :f :write, :value 1}\n";
    for (text, wanted) in [
        (
            "{:process 0, :type :invoke, :f :write, :value 1.5}",
            "line 1: operation 0: 1.5 cannot be the argument of :write, which is an integer, string or keyword",
        ),
        (
            "{:process 0, :type :invoke, :f :write}",
            "line 1: operation 0: nil cannot be the argument of :write, which is an integer, string or keyword",
        ),
        (
            "{:process 0, :type :invoke, :f :write, :value 007}",
            "line 1: operation 0: 007 cannot be the argument of :write, which is an integer, string or keyword",
        ),
        (
            "{:process 0, :type :invoke, :f :drain}",
            "line 1: operation 0: :drain is not one of the functions :enqueue, :dequeue, :push, :pop, :insert, :extract-min, :write, :read, :cas, :clear, :create, :put, :get, :del, :put-if-absent, :replace, :assoc, :dissoc, :acquire, :release, :add, :remove, :contains, :fetch-add, :get-count, :lock, :unlock",
        ),
        (
            "{:process -1, :type :invoke, :f :read}",
            "line 1: operation 0: -1 cannot be a :process, which is an integer of at least 0, a string, or a keyword",
        ),
        (
            "{:process 0, :type :done, :f :read}",
            "line 1: operation 0: :done cannot be a :type, which is :invoke, :ok, :fail or :info",
        ),
        (
            "{:process 0, :type :ok, :f :read}",
            "line 1: operation 0: process 0 has no operation to complete",
        ),
        (
            "{:process 0, :type :invoke, :f :write, :value [1 2]}",
            "line 1: operation 0: [1 2] cannot be the argument of :write, which is an integer, string or keyword. If it is a tuple of jepsen.independent, use --independent",
        ),
        (
            "{:process 0, :type :invoke, :f :insert, :value \"a\"}",
            "line 1: operation 0: \"a\" cannot be the argument of :insert, which is an integer of 64 bits",
        ),
        (
            "{:process 0, :type :invoke}",
            "line 1: operation 0: :f is missing; it must be one of :enqueue, :dequeue, :push, :pop, :insert, :extract-min, :write, :read, :cas, :clear, :create, :put, :get, :del, :put-if-absent, :replace, :assoc, :dissoc, :acquire, :release, :add, :remove, :contains, :fetch-add, :get-count, :lock, :unlock",
        ),
        (
            "{:process 0, :type :invoke, :f write, :value 1}",
            "line 1: operation 0: the symbol write cannot be an :f: write the keyword :write",
        ),
        ("\u{feff}{:process 0, :type :invoke, :f :read}", "line 1: a byte order mark: remove it"),
        (
            "{\"process\": 0, \"type\": \"invoke\", \"f\": \"write\",\n\"value\": 1, \"value\": 2}",
            "line 2: the key :value is in the same map twice",
        ),
        ("", "line 1: no operation of a client"),
        ("{:process :nemesis}", "line 1: no operation of a client"),
    ] {
        assert_eq!(refused(text, &Options::default()), wanted, "{text}");
    }
    for (more, wanted) in [
        (
            "{:process 0, :type :ok, :f :read}",
            "line 2: operation 1: :read cannot complete :write, operation 0",
        ),
        (
            "{:process 0, :type :ok, :f :write, :value 2}",
            "line 2: operation 1: 2 cannot be the reply of :write, which is its argument, true, \"OK\" or nil",
        ),
        (
            "{:process 0, :type :ok, :f :write, :object 2}",
            "line 2: operation 1: 2 is not the object of its invocation, operation 0: 0",
        ),
        (
            "{:process 0, :type :invoke, :f :read}",
            "line 2: operation 1: process 0 already has an operation outstanding",
        ),
        ("7", "line 2: no map: 7; "),
        ("\n{:process", "line 3: "),
        (
            "{:process 0, :type :ok, :f :write,\n:value 1, :value 2}",
            "line 3: the key :value is in the same map twice; ",
        ),
        (
            "{:process 1, :type :invoke, :f :read, :more [{\"a\" 1, \"a\" 1}]}",
            "line 2: the key \"a\" is in the same map twice; ",
        ),
    ] {
        let said = refused(&format!("{write}{more}"), &Options::default());
        assert!(said.starts_with(wanted), "{more}: {said}");
    }
    let strange = format!(
        "{write}{{:process 0, :type :ok, :f :write}}\n{{:process 0, :type :invoke, :f :read}}\n{{:process 0, :type :ok, :f :read, :value :empty}}"
    );
    let said = refused(&strange, &Options::default());
    assert!(
        said.starts_with(
            "line 4: operation 3: :empty is the reply of :read, but no operation puts that value in"
        ),
        "{said}"
    );
}

/// Numbers that look drawn.
struct Draws(u64);

impl Draws {
    fn below(&mut self, bound: u64) -> u64 {
        self.0 = self.0.wrapping_mul(6364136223846793005).wrapping_add(1442695040888963407);
        (self.0 >> 33) % bound
    }
}

/// A value: an integer, a string or a keyword.
fn value(draws: &mut Draws) -> String {
    let number = draws.below(6);
    match draws.below(3) {
        0 => number.to_string(),
        1 => format!("\"v {number}\""),
        _ => format!(":v{number}"),
    }
}

/// The words of one operation of a history: its process, its object, and its value, as the file has
/// them.
type Words = (String, String, String);

/// A history of registers, and the words of each of its operations.
fn drawn(draws: &mut Draws) -> (String, Vec<Words>) {
    let (mut text, mut words) = (String::new(), Vec::new());
    for _ in 0..draws.below(20) + 1 {
        let process = if draws.below(2) == 0 {
            draws.below(3).to_string()
        } else {
            format!("\"p{}\"", draws.below(3))
        };
        let object = if draws.below(2) == 0 {
            draws.below(3).to_string()
        } else {
            format!(":x{}", draws.below(3))
        };
        let value = value(draws);
        for kind in ["invoke", "ok"] {
            text.push_str(&format!("{{:process {process}, :type :{kind}, :f :write, :value {value}, :object {object}}}\n"));
            words.push((process.clone(), object.clone(), value.clone()));
        }
    }
    (text, words)
}

/// The word after a key of a line.
fn after<'a>(line: &'a str, key: &str) -> &'a str {
    let rest = line.split_once(key).expect("the key").1;
    rest.split([',', '}']).next().expect("a word")
}

#[test]
fn names_come_back() {
    let mut draws = Draws(7);
    for _ in 0..500 {
        let (text, words) = drawn(&mut draws);
        let (made, table) = imported(&text);
        let names = Names::read(&table).expect("the table is one to one");
        let original = |names: &std::collections::BTreeMap<i64, Form>, word: &str| {
            names.get(&word.parse().expect("a number")).map_or(word.to_owned(), Form::to_string)
        };
        let back: Vec<Words> = made
            .lines()
            .map(|line| {
                let process = original(&names.processes, after(line, ":process "));
                (
                    process,
                    original(&names.objects, after(line, ":object ")),
                    original(&names.values, after(line, ":value ")),
                )
            })
            .collect();
        assert_eq!(back, words, "{text}");
    }
}

#[test]
fn clients_that_leave_the_argument_there() {
    let text = "{:process 0, :type :invoke, :f :assoc, :value [:a 5]}
{:process 0, :type :ok, :f :assoc, :value [:a 5]}
{:process 0, :type :invoke, :f :dissoc, :value :a}
{:process 0, :type :ok, :f :dissoc, :value :a}
{:process 0, :type :invoke, :f :dissoc, :value :a}
{:process 0, :type :ok, :f :dissoc, :value \"OK\"}
{:process 0, :type :invoke, :f :replace, :value [:a 5 6]}
{:process 0, :type :ok, :f :replace, :value false}
{:process 0, :type :invoke, :f :put_if_absent, :value [:a 6]}
{:process 0, :type :ok, :f :put_if_absent, :value true}
{:process 1, :type :invoke, :f :clear, :object 7}
{:process 1, :type :ok, :f :clear, :value true, :object 7}
{:process 1, :type :invoke, :f :create, :value 5, :object 7}
{:process 1, :type :ok, :f :create, :value true, :object 7}";
    let wanted = "\
{:process 0, :type :invoke, :f :assoc, :value [0 5], :object 0}
{:process 0, :type :ok, :f :assoc, :value nil, :object 0}
{:process 0, :type :invoke, :f :dissoc, :value 0, :object 0}
{:process 0, :type :ok, :f :dissoc, :value nil, :object 0}
{:process 0, :type :invoke, :f :dissoc, :value 0, :object 0}
{:process 0, :type :ok, :f :dissoc, :value nil, :object 0}
{:process 0, :type :invoke, :f :replace, :value [0 5 6], :object 0}
{:process 0, :type :ok, :f :replace, :value false, :object 0}
{:process 0, :type :invoke, :f :put-if-absent, :value [0 6], :object 0}
{:process 0, :type :ok, :f :put-if-absent, :value true, :object 0}
{:process 1, :type :invoke, :f :clear, :value nil, :object 7}
{:process 1, :type :ok, :f :clear, :value nil, :object 7}
{:process 1, :type :invoke, :f :create, :value 5, :object 7}
{:process 1, :type :ok, :f :create, :value true, :object 7}
";
    assert_eq!(imported(text), (wanted.to_owned(), "{:value 0, :is :a}\n".to_owned()));
    let strange = "{:process 0, :type :invoke, :f :assoc, :value [1 5]}
{:process 0, :type :ok, :f :assoc, :value [1 6]}";
    assert!(refused(strange, &Options::default()).starts_with("line 2: operation 1: [1 6] cannot"));
}

#[test]
fn sets_counters_and_owners() {
    let text = "{:process 0, :type :invoke, :f :add, :value \"x\"}
{:process 0, :type :ok, :f :add, :value true}
{:process 0, :type :invoke, :f :contains, :value \"y\"}
{:process 0, :type :ok, :f :contains, :value false}
{:process 1, :type :invoke, :f :fetch_add, :value -2, :object 1}
{:process 1, :type :ok, :f :fetch_add, :value 7, :object 1}
{:process 1, :type :invoke, :f :get_count, :object 1}
{:process 1, :type :ok, :f :get_count, :value 5, :object 1}
{:process 2, :type :invoke, :f :acquire, :value \"n1\", :object 2}
{:process 2, :type :ok, :f :acquire, :value \"n1\", :object 2}
{:process 2, :type :invoke, :f :unlock, :value 4, :object 2}
{:process 2, :type :ok, :f :unlock, :object 2}";
    let wanted = "\
{:process 0, :type :invoke, :f :add, :value 0, :object 0}
{:process 0, :type :ok, :f :add, :value true, :object 0}
{:process 0, :type :invoke, :f :contains, :value 1, :object 0}
{:process 0, :type :ok, :f :contains, :value false, :object 0}
{:process 1, :type :invoke, :f :fetch-add, :value -2, :object 1}
{:process 1, :type :ok, :f :fetch-add, :value 7, :object 1}
{:process 1, :type :invoke, :f :get-count, :value nil, :object 1}
{:process 1, :type :ok, :f :get-count, :value 5, :object 1}
{:process 2, :type :invoke, :f :lock, :value 2, :object 2}
{:process 2, :type :ok, :f :lock, :value nil, :object 2}
{:process 2, :type :invoke, :f :unlock, :value 4, :object 2}
{:process 2, :type :ok, :f :unlock, :value nil, :object 2}
";
    let owners = Options { has_owners: true, ..Options::default() };
    assert_eq!(import(text, &owners).map(|it| it.text), Ok(wanted.to_owned()));
    let grow_only = "{:process 0, :type :invoke, :f :add, :value 5}
{:process 0, :type :ok, :f :add, :value 5}";
    let why = "line 2: operation 1: 5 cannot be the reply of :add, which is true or false";
    assert_eq!(refused(grow_only, &Options::default()), why);
    let no_owner = "{:process 0, :type :invoke, :f :lock}";
    assert!(refused(no_owner, &owners).contains("nil cannot be the argument of :lock"));
}
