"""Texts with a spelling fault, as histories, certificates and reasons: which fault is named, and at which byte.

Each is worked out from the rules of docs/formats.md. A history is read with the beginnings of its values alone, certificates beside the
numbers of their orders, and reasons as whole forms."""
from ..running import at_once
from ..text_writers import lines, ok

# A text and its first fault.
TEXTS = (
    # Separators and comments.
    ("\x0c1", "E9 at byte 0"),
    ("\xa01", "E9 at byte 0"),
    ("\x00", "E9 at byte 0"),
    # Names.
    ("nill", "E9 at byte 0"),
    ("NIL", "E9 at byte 0"),
    ("truefalse", "E9 at byte 0"),
    ("a", "E9 at byte 0"),
    ("foo/bar", "E9 at byte 0"),
    # Where a token ends.
    ("true(1)", "E9 at byte 4"),
    ("1)", "E9 at byte 1"),
    ("nil]", "E3 at byte 3"),
    ("nil[", "E2 at byte 4"),
    ("1}", "E3 at byte 1"),
    # Integers.
    ("9223372036854775808", "E4 at byte 0"),
    ("+9223372036854775808", "E4 at byte 0"),
    ("-9223372036854775809", "E4 at byte 0"),
    ("18446744073709551616", "E4 at byte 0"),
    ("-99999999999999999999999999", "E4 at byte 0"),
    (" 9223372036854775808", "E4 at byte 1"),
    ("1 -9223372036854775809 ", "E4 at byte 2"),
    ("00", "E3 at byte 0"),
    ("007", "E3 at byte 0"),
    ("-007", "E3 at byte 0"),
    ("+01", "E3 at byte 0"),
    ("09223372036854775808", "E3 at byte 0"),
    ("1a", "E3 at byte 0"),
    ("1-2", "E3 at byte 0"),
    ("1+2", "E3 at byte 0"),
    ("1:a", "E3 at byte 0"),
    ("0x10", "E3 at byte 0"),
    ("1x.5", "E3 at byte 0"),
    ("-1x", "E3 at byte 0"),
    ("1/2", "E3 at byte 0"),
    ("1é", "E3 at byte 0"),
    ("9223372036854775808x", "E3 at byte 0"),
    ("1.5", "E9 at byte 0"),
    ("1.", "E9 at byte 0"),
    ("1e5", "E9 at byte 0"),
    ("1E5", "E9 at byte 0"),
    ("1N", "E9 at byte 0"),
    ("1M", "E9 at byte 0"),
    ("00N", "E9 at byte 0"),
    ("007.5", "E9 at byte 0"),
    ("-1.5", "E9 at byte 0"),
    ("+1e", "E9 at byte 0"),
    ("9223372036854775808N", "E9 at byte 0"),
    ("+", "E9 at byte 0"),
    ("-", "E9 at byte 0"),
    ("+-1", "E9 at byte 0"),
    ("--1", "E9 at byte 0"),
    ("+a", "E9 at byte 0"),
    ("-:a", "E9 at byte 0"),
    (".5", "E9 at byte 0"),
    # Keywords.
    (":abbbbbbbbbbbbbbbbbbbbbbbbbbbbbbbbbbbbbbbbbbbbbbbbbbbbbbbbbbbbbbbb", "E3 at byte 0"),
    ("{:aaaaaaaaaaaaaaaaaaaaaaa 1 :aaaaaaaaaaaaaaaaaaaaaa 2 :aaaaaaaaaaaaaaaaaaaaaaa 3}", "E5 at byte 54"),
    (":", "E3 at byte 0"),
    (": a", "E3 at byte 0"),
    (":1", "E3 at byte 0"),
    (":-a", "E3 at byte 0"),
    (":a/b", "E3 at byte 0"),
    ("::a", "E3 at byte 0"),
    (":a:b", "E3 at byte 0"),
    (":a*", "E3 at byte 0"),
    (":é", "E3 at byte 0"),
    (":aé", "E3 at byte 0"),
    ("1 :1.5", "E3 at byte 2"),
    # What the profile leaves out.
    ("(", "E9 at byte 0"),
    (")", "E9 at byte 0"),
    ("[(1)]", "E9 at byte 1"),
    ("#{1}", "E9 at byte 0"),
    ('#inst "x"', "E9 at byte 0"),
    ("#_ 1", "E9 at byte 0"),
    ("\\a", "E9 at byte 0"),
    ("'a", "E9 at byte 0"),
    ("@a", "E9 at byte 0"),
    ("é", "E9 at byte 0"),
    ("1 ☃", "E9 at byte 2"),
    # Strings.
    ('"\\x"', "E3 at byte 1"),
    ('"ab\\u0041"', "E3 at byte 3"),
    ('"\\ "', "E3 at byte 1"),
    ('"\\é"', "E3 at byte 1"),
    ('["a\\q"]', "E3 at byte 3"),
    ('"a\\q', "E3 at byte 2"),
    ('"a\\T"', "E3 at byte 2"),
    ('"', "E2 at byte 1"),
    ('"a', "E2 at byte 2"),
    ('"\\', "E2 at byte 2"),
    ('"a\\"', "E2 at byte 4"),
    ('"a\\n', "E2 at byte 4"),
    ('[1 "a', "E2 at byte 5"),
    ('"é', "E2 at byte 3"),
    # Vectors.
    ("[", "E2 at byte 1"),
    ("[1", "E2 at byte 2"),
    ("[1 ", "E2 at byte 3"),
    ("[ ;c", "E2 at byte 4"),
    ("[[1]", "E2 at byte 4"),
    ("]", "E3 at byte 0"),
    ("[}", "E3 at byte 1"),
    ("[1}", "E3 at byte 2"),
    ("[1]]", "E3 at byte 3"),
    ("[)", "E9 at byte 1"),
    # How deep.
    ("[[[[[[[[[[[[[[[[[", "E8 at byte 16"),
    ("[[[[[[[[[[[[[[[[{", "E8 at byte 16"),
    ("[[[[[[[[[[[[[[[[(", "E9 at byte 16"),
    ('[[[[[[[[[[[[[[[["x" 1', "E2 at byte 21"),
    ("[[[[[[[[[[[[[[[{[", "E7 at byte 16"),
    ("[[[[[[[[[[[[[[[{:a [", "E8 at byte 19"),
    ("{:a {:a {:a {:a {:a {:a {:a {:a {:a {:a {:a {:a {:a {:a {:a {:a {", "E8 at byte 64"),
    # Maps.
    ("{:a}", "E6 at byte 3"),
    ("{:a 1 :b}", "E6 at byte 8"),
    ("{:a ;\n}", "E6 at byte 6"),
    ("{:a 1]", "E3 at byte 5"),
    ("{:a]", "E3 at byte 3"),
    ("{]", "E3 at byte 1"),
    ("}", "E3 at byte 0"),
    ("{:a 1}}", "E3 at byte 6"),
    ("{", "E2 at byte 1"),
    ("{:a", "E2 at byte 3"),
    ("{:a 1", "E2 at byte 5"),
    ("{:a 1 ;", "E2 at byte 7"),
    ("{:process 0, :type :invoke", "E2 at byte 26"),
    # Keys.
    ("{1 2}", "E7 at byte 1"),
    ("{-0 1}", "E7 at byte 1"),
    ("{nil 1}", "E7 at byte 1"),
    ("{true 1}", "E7 at byte 1"),
    ('{"a" 1}', "E7 at byte 1"),
    ("{[1] 2}", "E7 at byte 1"),
    ("{{} 1}", "E7 at byte 1"),
    ("{:a 1 2 3}", "E7 at byte 6"),
    ("{[", "E7 at byte 1"),
    ('{"', "E7 at byte 1"),
    ('{"\\q" 1}', "E7 at byte 1"),
    ('{"a', "E7 at byte 1"),
    ("{1", "E7 at byte 1"),
    ("{007 1}", "E3 at byte 1"),
    ("{9223372036854775808 1}", "E4 at byte 1"),
    ("{1.5 1}", "E9 at byte 1"),
    ("{foo 1}", "E9 at byte 1"),
    ("{(1) 2}", "E9 at byte 1"),
    ("{:1 1}", "E3 at byte 1"),
    ("{:a/b 1}", "E3 at byte 1"),
    ("{:f :enqueue, :f :enqueue}", "E5 at byte 14"),
    ("{:a 1 :a 2}", "E5 at byte 6"),
    ("{:a 1 :a}", "E5 at byte 6"),
    ("{:a 1 :b 2 :a 3}", "E5 at byte 11"),
    ("{:a 1 :a", "E5 at byte 6"),
    ("{:a {:b 1 :b 2} :a 3}", "E5 at byte 10"),
    # The first fault is the answer.
    ("1 007 (", "E3 at byte 2"),
    ("(] 007", "E9 at byte 0"),
    ("{:a 007 :a 1}", "E3 at byte 4"),
    ('[1 "\\q" :1', "E3 at byte 4"),
    # What is wrong in a part of a value that is not kept where values are cut.
    ("{:a [0 0 0 0 {:b 1 :b 2}]}", "E5 at byte 19"),
    ("{:a [0 0 0 0 {:b}]}", "E6 at byte 16"),
    ("{:a [0 0 0 0 }", "E3 at byte 13"),
    ("{:a [0 0 0 0 x]}", "E9 at byte 13"),
    ("{:a [0 0 0 01]}", "E3 at byte 11"),
    ("{:a [0 0 0 9223372036854775808]}", "E4 at byte 11"),
    ("{:a {:b [1 {2 3}]}}", "E7 at byte 12"),
    ("{:a {:b 1 :b 2}}", "E5 at byte 10"),
    ("{:a {:b {[] 1}}}", "E7 at byte 9"),
    ('{:a [1 2 3 "\\x"]}', "E3 at byte 12"),
    ("{:a [1 2 3 [4", "E2 at byte 13"),
    ("[1 2 3 4 {:b 1 :b 2}]", "E5 at byte 15"),
    ("{:a [[[[[[[[[[[[[[[[]]]]]]]]]]]]]]]]}", "E8 at byte 19"),
)

# Not UTF-8.
BROKEN = (
    (b"\xff", "E1 at byte 0"),
    (b"7 \xff", "E1 at byte 2"),
    (b"\x80", "E1 at byte 0"),
    (b"[\xbf", "E1 at byte 1"),
    (b"\xf8", "E1 at byte 0"),
    (b"\xc3", "E1 at byte 0"),
    (b"\xc3a", "E1 at byte 0"),
    (b"a\xe2\x82", "E1 at byte 1"),
    (b"\xe2(\xa1", "E1 at byte 0"),
    (b"\xc0\xaf", "E1 at byte 0"),
    (b"\xc1\x80", "E1 at byte 0"),
    (b"\xe0\x80\xaf", "E1 at byte 0"),
    (b"\xf0\x82\x82\xac", "E1 at byte 0"),
    (b"\xed\xa0\x80", "E1 at byte 0"),
    (b"\xf4\x90\x80\x80", "E1 at byte 0"),
    (b"\xf0\x9f\x92", "E1 at byte 0"),
    (b'"\xc3"', "E1 at byte 1"),
    (b'"a\xe2\x98\x83\xe2\x98"', "E1 at byte 5"),
    (b'"\\\xff"', "E1 at byte 2"),
    (b'";"\xff', "E1 at byte 3"),
    (b";\xe2\x82\n1", "E1 at byte 1"),
    (b"; \xff", "E1 at byte 2"),
    (b"007 \x80", "E1 at byte 4"),
    (b"{:a 1 :a \xc3\xa9\x80", "E1 at byte 11"),
)

# After many elements and deep, all is still read: a key that has no meaning, with 2,000 vectors in its value.
DEEP = "{:process 0 :type :invoke :f :pop :note [" + "[[[[{:a [[1 2] 3]}]]]]" * 2000 + "]}" + ok(0, "pop")
# What a text is read as.
AS = (("check", "history"), ("check", "certificates"), ("refute", "reasons"))


def read_as(program, number, text):
    """The answers for a text as a history, as certificates and as reasons."""
    text = text if isinstance(text, bytes) else text.encode()
    name, none = program.write(f"spelled.{number}.edn", text), program.write("none.edn", "")
    return [program.run("check", name, none), program.run("check", none, name), program.run("refute", none, name)]


def texts_are_refused(program, report):
    """Each text with a spelling fault is refused: the fault and its place are named."""
    rows = [*TEXTS, *BROKEN]
    for (text, fault), those in zip(rows, at_once(lambda number: read_as(program, number, rows[number][0]), range(len(rows)))):
        for (command, of), ran in zip(AS, those):
            report.answers(f"{command}: {text!r} as {of}", ran, f"malformed {of}: {fault}\n", 2)


def with_key_again(before, keys, again):
    """After `before` a map of this many keys, then one of them once more, or a new one, and where that is."""
    text = before + "{" + "".join(f":key-{number} {number}, " for number in range(keys))
    return text + f":key-{again} nil}}", len(text)


def keys_again(program, report):
    """A key that is twice in a map is refused, whether the map has few keys or many. Small maps come after one of forty keys, which are in a set."""
    large = "[" + with_key_again("", 40, 40)[0] + " "
    rows = []
    for keys in range(1, 41):
        for again in range(keys + 1):
            before, after = (large, "]") if keys < 40 else ("", "")
            text, place = with_key_again(before, keys, again)
            rows.append((text + after, f"E5 at byte {place}" if again < keys else None))
    # A text that is read is no history, no certificates and no reasons.
    others = "malformed history: H1 at map 0\n", "malformed certificates: K1 at form 0\n", "malformed reasons: N1 at form 0\n"
    for (text, fault), those in zip(rows, at_once(lambda number: read_as(program, number, rows[number][0]), range(len(rows)))):
        for (command, of), other, ran in zip(AS, others, those):
            report.answers(f"{command}: {text[-40:]} as {of}", ran, f"malformed {of}: {fault}\n" if fault else other, 2)


def deep_values(program, report):
    """A value of many deep vectors is skipped."""
    ran = program.run("judge", program.write("deep.edn", DEEP))
    report.answers("judge: a value of many deep vectors", ran, lines("yes: 1 operations, 1 objects", "stack: 1 objects, 1 operations"), 0)


PARTS = (texts_are_refused, keys_again, deep_values)
