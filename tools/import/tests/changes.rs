//! What import does not take as the history has it: it is counted, and said.

use import::{Imported, Names, Options, import, with_names};
use std::fs;

fn made(text: &str, options: &Options) -> Imported {
    import(text, options).unwrap_or_else(|refused| panic!("{refused}: {text}"))
}

fn imported(text: &str) -> Imported {
    made(text, &Options::default())
}

fn refused(text: &str, options: &Options) -> String {
    import(text, options).expect_err("it is refused").to_string()
}

fn by_time() -> Options {
    Options { is_by_time: true, ..Options::default() }
}

fn owners() -> Options {
    Options { has_owners: true, ..Options::default() }
}

/// All lines on an import.
fn lines(made: &Imported) -> String {
    [&made.warnings[..], &made.notes[..]].concat().join("\n")
}

/// The lines of a call: its process, function, object, argument and reply.
fn call(process: &str, f: &str, object: i64, argument: &str, reply: &str) -> String {
    let of = |kind, value| {
        format!(
            "{{:process {process}, :type :{kind}, :f :{f}, :value {value}, :object {object}}}\n"
        )
    };
    of("invoke", argument) + &of("ok", reply)
}

#[test]
fn an_example_that_is_taken_as_it_is_has_no_line() {
    let folder = concat!(env!("CARGO_MANIFEST_DIR"), "/../../examples");
    let mut count = 0;
    for entry in fs::read_dir(folder).expect("the examples") {
        let path = entry.expect("an entry").path();
        let name = path.file_name().expect("a name").to_string_lossy().into_owned();
        if !name.ends_with(".history.edn") || name == "after_info.history.edn" {
            continue;
        }
        let text = fs::read_to_string(&path).expect("a text");
        if finder::read_history(text.as_bytes()).is_some_and(|it| !it.objects.is_empty()) {
            assert_eq!(lines(&imported(&text)), "", "{name}");
            count += 1;
        }
    }
    assert!(count >= 20, "{count}");
}

#[test]
fn a_lock_keeps_its_owners() {
    let unlocked_by_another = include_str!("../../../examples/unlocked_by_another.history.edn");
    let text = imported(unlocked_by_another).text;
    let wanted = "\
{:process 0, :type :invoke, :f :lock, :value 1, :object 0}
{:process 0, :type :ok, :f :lock, :value nil, :object 0}
{:process 1, :type :invoke, :f :unlock, :value 2, :object 0}
{:process 1, :type :ok, :f :unlock, :value nil, :object 0}
";
    assert_eq!(text, wanted);
    let named = unlocked_by_another
        .replace(":value 1", ":value \"alice\"")
        .replace(":value 2", ":value :bob");
    let imported_names = imported(&named);
    assert_eq!(
        imported_names.text,
        wanted.replace(":value 1", ":value 0").replace(":value 2", ":value 1")
    );
    assert_eq!(imported_names.warnings, [""; 0]);
    assert_eq!(
        imported_names.names.to_string(),
        "{:value 0, :is \"alice\"}\n{:value 1, :is :bob}\n"
    );
    let map = "{:client \"n1\", :uid 7}";
    let of_maps = call("0", "lock", 0, map, "true")
        + &call("0", "unlock", 0, "{:uid 7, :client \"n1\"}", "nil");
    assert_eq!(imported(&of_maps).names.to_string(), format!("{{:value 0, :is {map}}}\n"));
    let keyed = "{:process 0, :type :invoke, :f :lock, :value [\"k\" \"a\"]}";
    assert!(imported(keyed).text.contains(":f :lock, :value 0, :object 0"));
    for owner in ["0", "-1"] {
        assert!(
            imported(&call("0", "lock", 0, owner, "nil"))
                .text
                .contains(&format!(":lock, :value {owner}, "))
        );
    }
}

#[test]
fn owners_that_are_left_out_are_counted_with_the_option() {
    let text =
        call("0", "acquire", 0, "\"c1\"", "\"c1\"") + &call("1", "release", 0, "\"c2\"", "nil");
    let left_out = imported(&text);
    let wanted = "left out: 2 owners, such as \"c1\" of :acquire (first in line 1): who lets go of what another one holds is not judged. \
                  Use --owners, which keeps them";
    assert_eq!(left_out.warnings, [wanted]);
    assert!(left_out.lacks_owners);
    let kept = made(&text, &owners());
    assert_eq!((kept.warnings, kept.lacks_owners), (vec![], false));
    assert!(kept.text.contains(":f :unlock, :value 1,"), "{}", kept.text);

    // A lock of which one operation names no owner is a mutex.
    let mixed = call("0", "lock", 0, "\"c1\"", "true") + &call("0", "unlock", 0, "nil", "nil");
    let mutex = imported(&mixed);
    assert!(mutex.text.contains(":f :acquire, :value nil,"), "{}", mutex.text);
    assert!(
        mutex.warnings[0]
            .starts_with("left out: 1 owners, such as \"c1\" of :acquire (first in line 1): ")
    );
    let renamed =
        "renamed: 4 functions, such as :lock, which is :acquire in the text (first in line 1)";
    assert!(mutex.notes.contains(&renamed.to_owned()), "{:?}", mutex.notes);
    assert!(refused(&mixed, &owners()).contains("nil cannot be the argument of :unlock"));
    let of_both = call("0", "lock", 0, "7", "true") + &call("0", "release", 0, "7", "nil");
    assert!(imported(&of_both).warnings[0].starts_with("left out: 2 owners, "));
}

/// What also says that a call was done is no owner, and the object is a mutex.
#[test]
fn an_owner_that_is_read_as_none_is_named() {
    for owner in ["\"OK\"", ":ok"] {
        let text = call("0", "lock", 0, owner, "nil") + &call("1", "unlock", 0, owner, "nil");
        let read = imported(&text);
        let wanted = format!(
            "read as no owner: 2 arguments, such as {owner} of :acquire (first in line 1): it says that a call was done, so the object \
             is a mutex. Give the owner another name if it is one"
        );
        assert_eq!(read.warnings, [wanted]);
        assert!(read.text.contains(":f :acquire, :value nil,"), "{}", read.text);
        assert!(refused(&text, &owners()).ends_with(". It names no owner"));
        let mixed = call("0", "lock", 0, "\"a\"", "nil") + &call("1", "unlock", 0, owner, "nil");
        let warnings = imported(&mixed).warnings;
        let wanted =
            format!("read as no owner: 1 arguments, such as {owner} of :release (first in line 3)");
        assert!(warnings.iter().any(|it| it.starts_with(&wanted)), "{warnings:?}");
    }
    let reply = call("0", "lock", 0, "\"a\"", "\"OK\"");
    assert_eq!(imported(&reply).warnings, [""; 0]);
}

/// Two spellings of one instant would be two names.
#[test]
fn an_instant_is_no_name() {
    let instant = "#inst \"2020-01-01T00:00:00.000Z\"";
    let wanted = "cannot be an object or key: it has a number, pattern or instant of which equal ones may be spelled differently";
    for object in [
        instant.to_owned(),
        format!("[{instant}]"),
        format!("{{:a #{{{instant}}}}}"),
        format!("#a {instant}"),
    ] {
        let text =
            call("0", "write", 0, "1", "1").replace(":object 0", &format!(":object {object}"));
        let said = format!("line 1: operation 0: {object} {wanted}");
        assert_eq!(refused(&text, &Options::default()), said);
    }
    let tuple = call("0", "read", 0, &format!("[{instant} nil]"), "nil").replace(", :object 0", "");
    assert!(refused(&tuple, &Options::default()).ends_with(wanted));
    let advice = ". Equal instants may be spelled differently: record a string";
    for (f, value) in [
        ("write", instant.to_owned()),
        ("write", format!("#a {instant}")),
        ("put", format!("[{instant} 1]")),
        ("put", format!("[1 {instant}]")),
        ("acquire", instant.to_owned()),
        ("lock", format!("{{:since {instant}}}")),
    ] {
        let said = refused(&call("0", f, 0, &value, "nil"), &Options::default());
        assert!(said.ends_with(advice), "{f} {value}: {said}");
    }
    let read = call("0", "read", 0, "nil", instant);
    assert!(refused(&read, &Options::default()).ends_with(advice));
    let other =
        call("0", "write", 0, "1", "1").replace(":object 0", &format!(":object 0, :at {instant}"));
    assert_eq!(imported(&other).warnings, [""; 0]);
}

#[test]
fn fencing_tokens_are_counted() {
    let token = "left out: 2 replies of operations that acquire or release, such as 17 of";
    for (options, f, argument) in [
        (Options::default(), "lock", "\"c\""),
        (Options::default(), "acquire", "nil"),
        (owners(), "acquire", "5"),
    ] {
        let text = call("0", f, 0, argument, "17") + &call("1", f, 0, argument, "16");
        let warnings = made(&text, &options).warnings;
        assert!(warnings.iter().any(|it| it.starts_with(token)), "{f} {argument}: {warnings:?}");
    }
    let plain = call("0", "lock", 0, "5", "5") + &call("0", "unlock", 0, "5", "true");
    let read = imported(&plain);
    assert_eq!(read.warnings, [""; 0]);
    assert_eq!(
        read.notes,
        ["rewritten: 2 arguments and replies, such as 5 of :lock (first in line 2)"]
    );
}

#[test]
fn a_client_releases_what_it_holds() {
    let checked = Options { checks_owners: true, ..Options::default() };
    let acquired = call("0", "acquire", 0, "\"c1\"", "true");
    let not_held = "process 1 releases object 0, which it does not hold";
    for (release, wanted) in [
        (call("1", "release", 0, "\"c2\"", "nil"), format!("line 3: operation 2: {not_held}")),
        (call("1", "release", 0, "\"c1\"", "nil"), format!("line 3: operation 2: {not_held}")),
        (call("1", "release", 0, "nil", "nil"), format!("line 3: operation 2: {not_held}")),
        (
            call("0", "release", 0, "\"c2\"", "nil"),
            "line 3: operation 2: it releases owner \"c2\", but acquired owner \"c1\"".to_owned(),
        ),
        (
            call("0", "release", 1, "\"c1\"", "nil"),
            "line 3: operation 2: process 0 releases object 1, which it does not hold".to_owned(),
        ),
        (
            call("0", "release", 0, "\"c1\"", "nil") + &call("0", "release", 0, "\"c1\"", "nil"),
            "line 5: operation 4: process 0 releases object 0, which it does not hold".to_owned(),
        ),
    ] {
        assert_eq!(refused(&(acquired.clone() + &release), &checked), wanted);
    }
    for release in [call("0", "release", 0, "\"c1\"", "nil"), call("0", "release", 0, "nil", "nil")]
    {
        made(&(acquired.clone() + &release), &checked);
    }
    let failed =
        acquired.replace(":type :ok", ":type :fail") + &call("0", "release", 0, "\"c1\"", "nil");
    assert!(refused(&failed, &checked).ends_with("which it does not hold"));
    let locks = call("0", "lock", 0, "1", "nil") + &call("1", "unlock", 0, "1", "nil");
    assert!(refused(&locks, &checked).ends_with(not_held));
}

#[test]
fn a_process_that_goes_on_after_info_is_another_one() {
    let info = "{:process 0, :type :invoke, :f :read}\n{:process 0, :type :info, :f :read}\n";
    let text = format!("{info}{info}{info}{}", call("1", "write", 0, "1", "1"));
    let read = imported(&text);
    let processes: Vec<&str> = read.text.lines().map(|it| &it[..12]).collect();
    let of = |process: &str| format!("{{:process {process},");
    let wanted = [of("0"), of("0"), of("2"), of("2"), of("3"), of("3"), of("1"), of("1")];
    assert_eq!(processes, wanted.each_ref().map(|it| &it[..12]));
    let warning = "renumbered: 2 processes that go on after their :info, such as 0 (first in line 3): a process invokes nothing after an \
                   operation that may still happen, so each goes on as another one";
    assert_eq!(read.warnings, [warning]);
    assert_eq!(read.names.to_string(), "{:process 2, :is [0 2]}\n{:process 3, :is [0 3]}\n");
    assert!(finder::read_history(read.text.as_bytes()).is_some());
    let read_back = Names::read(&read.names.to_string());
    assert_eq!(read_back, Ok(read.names));
    let completion = format!("{info}{{:process 0, :type :ok, :f :read}}");
    assert_eq!(
        refused(&completion, &Options::default()),
        "line 3: operation 2: process 0 has no operation to complete"
    );
}

/// A line of an operation with a time, if it has one.
fn timed(process: i64, kind: &str, value: &str, time: &str) -> String {
    let time = if time.is_empty() { String::new() } else { format!(", :time {time}") };
    format!("{{:process {process}, :type :{kind}, :f :write, :value {value}{time}}}\n")
}

/// Two logs that were joined.
fn joined() -> String {
    [
        timed(0, "invoke", "1", "100"),
        timed(0, "ok", "1", "200"),
        timed(1, "invoke", "2", "50"),
        timed(1, "ok", "2", ""),
        timed(1, "invoke", "3", "100"),
        timed(1, "ok", "3", "250"),
    ]
    .concat()
}

#[test]
fn times_that_go_back_are_counted() {
    let warning = "times go back: 2 operations have a :time before one that is above them, first line 3 (:time 50) after line 2 \
                   (:time 200). The order of the lines is judged. Use --by-time if that of the times is meant, as of logs that were joined";
    assert_eq!(imported(&joined()).warnings, [warning]);
    let json = "{\"process\": 0, \"type\": \"invoke\", \"f\": \"read\", \"time\": 9}
{\"process\": 0, \"type\": \"ok\", \"f\": \"read\", \"time\": 8}";
    assert!(imported(json).warnings[0].contains("first line 2 (:time 8) after line 1 (:time 9)"));
    let nemesis = "{:process :nemesis, :time 9}\n".to_owned() + &timed(0, "invoke", "1", "8");
    assert!(imported(&nemesis).warnings[0].starts_with("times go back: 1 operations"));
    for times in [["1", "2"], ["5", "5"], ["", "5"], ["5", ""], ["-5", "5"]] {
        let text = timed(0, "invoke", "1", times[0]) + &timed(0, "ok", "1", times[1]);
        assert_eq!(lines(&imported(&text)), "", "{times:?}");
    }
}

#[test]
fn operations_are_sorted_by_their_times() {
    let sorted = made(&joined(), &by_time());
    let values: Vec<(&str, &str)> = sorted
        .text
        .lines()
        .map(|it| {
            (
                &it[10..11],
                it.split_once(":type :").expect("a type").1.split_once(',').expect("its end").0,
            )
        })
        .collect();
    let wanted =
        [("1", "invoke"), ("1", "ok"), ("0", "invoke"), ("1", "invoke"), ("0", "ok"), ("1", "ok")];
    assert_eq!(values, wanted);
    assert_eq!(
        sorted.warnings,
        ["--by-time moved 5 of 6 operations: events are numbered by their new places"]
    );
    let in_order = timed(0, "invoke", "1", "1") + &timed(0, "ok", "1", "1");
    assert_eq!(lines(&made(&in_order, &by_time())), "");
}

#[test]
fn times_that_cannot_be_sorted_are_refused() {
    let early = timed(0, "invoke", "1", "100") + &timed(0, "ok", "1", "50");
    let wanted =
        "line 2: operation 0: by its :time the :ok of process 0 is before its :invoke in line 1";
    assert_eq!(refused(&early, &by_time()), wanted);
    let of_two = timed(0, "invoke", "1", "10")
        + &timed(0, "ok", "1", "20")
        + &timed(0, "invoke", "2", "40")
        + &timed(0, "info", "2", "30");
    let wanted =
        "line 4: operation 2: by its :time the :info of process 0 is before its :invoke in line 3";
    assert_eq!(refused(&of_two, &by_time()), wanted);
    let float = timed(0, "invoke", "1", "1.5");
    let wanted = "line 1: the :time 1.5 is no integer of 64 bits, and --by-time compares integers";
    assert_eq!(refused(&float, &by_time()), wanted);
    let alone = timed(0, "invoke", "1", "9") + &timed(1, "ok", "1", "5");
    assert_eq!(
        refused(&alone, &by_time()),
        "line 2: operation 0: process 1 has no operation to complete"
    );
}

/// Times never give a completion to another invocation than that above it.
#[test]
fn a_completion_keeps_its_invocation() {
    let exchanged = timed(0, "invoke", "1", "10")
        + &timed(0, "ok", "1", "40")
        + &timed(0, "invoke", "2", "30")
        + &timed(0, "ok", "2", "20");
    let wanted =
        "line 4: operation 1: by its :time the :ok of process 0 is before its :invoke in line 3";
    assert_eq!(refused(&exchanged, &by_time()), wanted);
    let nested = timed(0, "invoke", "1", "10")
        + &timed(0, "ok", "1", "40")
        + &timed(0, "invoke", "2", "20")
        + &timed(0, "ok", "2", "50");
    let wanted = "line 2: operation 2: by its :time the :ok of process 0 is the completion of another :invoke than that in line 1, which is its own";
    assert_eq!(refused(&nested, &by_time()), wanted);
    let taken =
        timed(0, "ok", "1", "20") + &timed(0, "invoke", "1", "10") + &timed(0, "ok", "1", "30");
    let wanted = "line 3: operation 2: by its :time the :ok of process 0 is the completion of another :invoke than that in line 2, which is its own";
    assert_eq!(refused(&taken, &by_time()), wanted);
    // The completions of two logs, and after them the invocations.
    let apart = timed(0, "ok", "1", "20")
        + &timed(0, "ok", "2", "40")
        + &timed(0, "invoke", "1", "10")
        + &timed(0, "invoke", "2", "30");
    let in_order = timed(0, "invoke", "1", "10")
        + &timed(0, "ok", "1", "20")
        + &timed(0, "invoke", "2", "30")
        + &timed(0, "ok", "2", "40");
    assert_eq!(made(&apart, &by_time()).text, imported(&in_order).text);
}

/// The lines on a history of one call, to which something was done.
#[test]
fn each_change_is_counted() {
    let plain = call("0", "write", 0, "1", "1");
    assert_eq!(lines(&imported(&plain)), "");
    for (from, to, wanted) in [
        (
            "object 0",
            "object 0, :time 1.5",
            "left out: 2 values of :time and :index that are no integers, such as :time 1.5 (first in line 1): these events have none in the text",
        ),
        (
            "object 0",
            "object 0, :node \"n1\"",
            "left out: 2 entries whose keys are not read, such as :node (first in line 1)",
        ),
        ("object 0", "object nil", "read as no :object: 2 objects, such as nil (first in line 1)"),
        (
            "object 0",
            "object :x",
            "numbered: 1 objects, such as :x; --names FILE writes which number each has",
        ),
        (
            "object 0",
            "object 65536",
            "numbered: 1 objects, such as 65536; --names FILE writes which number each has",
        ),
        (
            "process 0",
            "process \"n1\"",
            "numbered: 1 processes, such as \"n1\"; --names FILE writes which number each has",
        ),
        (
            ":value 1",
            ":value \"a\"",
            "numbered: 1 values and keys of maps, such as \"a\"; --names FILE writes which number each has",
        ),
        (
            ":type :ok, :f :write, :value 1",
            ":type :ok, :f :write, :value nil",
            "rewritten: 1 arguments and replies, such as nil of :write (first in line 2)",
        ),
        (
            ":type :ok, :f :write, :value 1",
            ":type :info, :f :write, :value :lost",
            "left out: 1 values of :fail and :info, such as :lost (first in line 2)",
        ),
        (":type :ok, :f :write, :value 1", ":type :info, :f :write, :value 1", ""),
        (":type :ok, :f :write, :value 1", ":type :fail, :f :write, :value nil", ""),
    ] {
        assert_eq!(lines(&imported(&plain.replace(from, to))), wanted, "{from} {to}");
    }
    for (more, wanted) in [
        ("{:process :nemesis, :type :info, :f :start}", ""),
        (
            "{:process :nemesis, :type :info, :f :start, :value [:all]}",
            "left out: 1 values and functions of the nemesis, such as [:all] (first in line 3)",
        ),
        (
            "{:process \"nemesis\", :f :start}",
            "read as :nemesis: 1 events of the process \"nemesis\", such as \"nemesis\" (first in line 3)",
        ),
        (
            "{:process :worker, :type :invoke, :f :write}",
            "left out: 1 events of processes that are keywords, such as :worker (first in line 3): they are no clients. The process of a client is an integer or a string",
        ),
    ] {
        assert_eq!(lines(&imported(&(plain.clone() + more))), wanted, "{more}");
    }
    let without = call("0", "write", 3, "1", "1")
        .replace(":type :ok, :f :write, :value 1, :object 3", ":type :ok, :f :write, :value 1");
    assert_eq!(
        lines(&imported(&without)),
        "read on the object of its invocation: 1 completions, such as one on 3 (first in line 2)"
    );
    let renamed = call("0", "put_if_absent", 0, "[1 2]", "true");
    assert_eq!(
        lines(&imported(&renamed)),
        "renamed: 2 functions, such as :put_if_absent, which is :put-if-absent in the text (first in line 1)"
    );
    let tuples = "{:process 0, :type :invoke, :f :read, :value [3 nil]}";
    assert_eq!(
        lines(&imported(tuples)),
        "read as tuples [key value]: 1 values, such as [3 nil] (first in line 1): each key is an object"
    );
    let long = format!("{{:process 0, :type :invoke, :f :read, {:?} 1}}", "k".repeat(100));
    assert_eq!(
        lines(&imported(&long)),
        format!(
            "left out: 1 entries whose keys are not read, such as \"{} .. (first in line 1)",
            "k".repeat(59)
        )
    );
}

/// A register is written on one spelling of an object, and read on another.
fn on_both(one: &str, other: &str) -> usize {
    let of = |object: &str, f, argument, reply| {
        call("0", f, 0, argument, reply).replace(":object 0", &format!(":object {object}"))
    };
    let text = of(one, "write", "1", "1") + &of(other, "read", "nil", "1");
    imported(&text).text.matches(":object 0").count()
}

#[test]
fn equal_objects_are_one_however_they_are_spelled() {
    for (one, other) in [
        ("{:a 1, :b 2}", "{:b 2, :a 1}"),
        ("{{:a 1, :b 2} #{1 2}}", "{{:b 2, :a 1} #{2 1}}"),
        ("#{1 2 3}", "#{3 1 2}"),
        ("(1 2)", "[1 2]"),
        ("[(1) {:a (2)}]", "([1] {:a [2]})"),
        ("#uuid \"AB\"", "#uuid \"ab\""),
        ("\\u0041", "\\A"),
        ("99999999999999999999", "+99999999999999999999N"),
        ("#:a{:b 1}", "{:a/b 1}"),
    ] {
        assert_eq!(on_both(one, other), 4, "{one} {other}");
    }
    for (one, other) in [
        ("#ver/a 1", "#ver/b 1"),
        ("#ver/a 1", "1"),
        ("{:a 1}", "{:a 2}"),
        ("[1 2]", "[2 1]"),
        ("[1 2]", "#{1 2}"),
        (":a", "\"a\""),
        ("#x.Y{:a 1}", "{:a 1}"),
    ] {
        assert!(on_both(one, other) < 4, "{one} {other}");
    }
    let json = |object: &str| {
        format!(
            "{{\"process\": 0, \"type\": \"invoke\", \"f\": \"read\", \"object\": {object}}}\n{{\"process\": 0, \"type\": \"ok\", \"f\": \"read\"}}\n"
        )
    };
    let both = json("{\"a\": 1, \"b\": 2}") + &json("{\"b\": 2, \"a\": 1}");
    assert_eq!(imported(&both).text.matches(":object 0").count(), 4);
    for object in ["1.5", "[1.0]", "{:a 1M}", "1/2", "##NaN", "{##Inf 1}", "#\"a\""] {
        let said = refused(
            &format!("{{:process 0, :type :invoke, :f :read, :object {object}}}"),
            &Options::default(),
        );
        assert!(said.contains("cannot be an object or key: "), "{object}: {said}");
    }
}

#[test]
fn values_keep_their_tags() {
    let text = call("0", "write", 0, "#ver/a 1", "#ver/a 1")
        + &call("0", "write", 0, "#ver/b 1", "#ver/b 1")
        + &call("0", "read", 0, "nil", "#ver/b 1");
    let read = imported(&text);
    assert!(read.text.ends_with(":f :read, :value 1, :object 0}\n"), "{}", read.text);
    assert_eq!(read.names.to_string(), "{:value 0, :is #ver/a 1}\n{:value 1, :is #ver/b 1}\n");
    for value in ["##NaN", "##Inf", "##-Inf", "#\"a\"", "1.5", "#a 1.5"] {
        let said = refused(&call("0", "write", 0, value, value), &Options::default());
        assert!(said.contains("cannot be the argument of :write"), "{value}: {said}");
    }
    let record = "#jepsen.history.Op{:process 0, :type :invoke, :f :read, :value nil}";
    assert_eq!(lines(&imported(record)), "");
    assert!(
        refused("#my/op {:process 0, :type :invoke, :f :read}", &Options::default())
            .starts_with("line 1: no map: #my/op {")
    );
}

/// Symbolic numbers in keys that are not read: what is after them stays in its place.
#[test]
fn symbolic_numbers_are_one_form() {
    let text = "{:process 0, :type :invoke, :f :write, :value 1}
{:process 0, :type :ok, :f :write, :value 1}
{:process 0, :type :invoke, :f :read, :value nil}
{:process 0, :type :ok, :f :read, :rate ##NaN, :value 1, :load ##Inf, :index 3}
";
    assert!(imported(text).text.ends_with(":f :read, :value 1, :object 0, :index 3}\n"));
}

#[test]
fn names_are_read_back_and_shown() {
    for key in ["my key", "", "a\\u001b[2J", "a\\\"b", "a,b", "\\u202e", "a;b", "}"] {
        let text = format!(
            "{{\"process\": 0, \"type\": \"invoke\", \"f\": \"write\", \"value\": 1, \"object\": {{\"{key}\": 1, \"z\": 2, \"A\": 3}}}}"
        );
        let table = imported(&text).names.to_string();
        assert_eq!(Names::read(&table).map(|it| it.to_string()), Ok(table.clone()), "{table}");
        assert!(table.trim_end().chars().all(|it| !it.is_control() && it != '\u{202e}'), "{table}");
    }
    let text = "{\"process\": 0, \"type\": \"invoke\", \"f\": \"write\", \"value\": 1, \"object\": \"\\u001b[2J\\u009b\\n\"}";
    let names = imported(text).names;
    let said = with_names(&names, "; object 0: impossible\n");
    assert_eq!(said, "; object 0, which is \"\\u001b[2J\\u009b\\n\": impossible\n");
}

#[test]
fn a_place_before_all_events_is_told_as_it_is() {
    let names = Names::read("{:before 1}").expect("a table");
    let line = "; a; event -9223372036854775808 is\n";
    assert_eq!(with_names(&names, line), line);
}
