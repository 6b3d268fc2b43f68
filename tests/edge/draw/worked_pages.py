"""Pages that draw prints: bars and points, sentences, rows and marks, and the places of faults, as in a prototype whose pages were
looked at in a browser."""
import re

from ..worked_rows import CERTIFICATES, ENQUEUE_DEQUEUE, FAILED, OUT_OF_ORDER, OVERLAPPING
from ..text_writers import order

# A history, the order of its object or none, the class of the page, and some of the texts that it has.
PAGES = (
    (
        OVERLAPPING,
        (1, 0, 4),
        "yes",
        (
            '<body class="yes">',
            'viewBox="0 0 272 112" width="408" height="168"',
            '<g class="op put done" data-op="0" id="o0"><title>enqueue 1\nevent 0, process 0, object 0\nreturned at event 2</title>',
            '<path class="edge" d="M62 26H139V60H62Z"/>',
            '<path class="thread" d="M90 93L111 51L179 51"/>',
            "<code>dequeue → 2</code></a></td><td><code>[1]</code></td></tr>",
        ),
    ),
    (
        OUT_OF_ORDER,
        (2, 0, 4),
        "no",
        (
            '<a class="skiplink" href="#fault">Go to the fault</a>',
            ". But #0 returned at event 1, before #2 was invoked at event 2. "
            "An operation that returned before another began must stand before it.</p>",
            '<path class="line" d="M139 35h10V77H190"/>',
            '<a class="pt bad" href="#r0-2"',
            "<td>returned at event 1, before #2 was invoked</td>",
        ),
    ),
    (
        ENQUEUE_DEQUEUE,
        None,
        "no",
        (
            "Object 0 has no certificate. The history has 2 operations on it, so it needs one: <code>{:object 0, :order [..]}</code>.</p>",
        ),
    ),
    (
        ENQUEUE_DEQUEUE,
        (0, 0, 2),
        "no",
        (
            " stands twice in the order for object 0, as entry 1 and again as entry 2. An operation takes effect once.</p>",
            "<td>stands already as entry 1</td>",
            "<td>not looked at</td>",
        ),
    ),
    (
        ENQUEUE_DEQUEUE,
        (0,),
        "no",
        (
            " returned at event 3, so it happened. But the order for object 0 leaves it out.</p>",
            '<g class="op take done focus leftout" data-op="2" id="o2">',
        ),
    ),
    (
        FAILED,
        (0,),
        "no",
        (
            ", which is no operation that can be in it: it failed at event 1, so it did not happen.</p>",
            "<td>no operation</td>",
        ),
    ),
    (
        ENQUEUE_DEQUEUE,
        (2, 0),
        "no",
        (
            " gives nil: the queue contains <code>[]</code> there. The history says that it returned 1. 1 was put by ",
            ", which comes after it, as entry 2.</p>",
            "<td>gives nil, returned 1</td>",
        ),
    ),
)

# A history, the order of its object or none, the width and height of its line, its bars (operation, from, to, top), and its points (rank, x, y).
FIGURES = (
    (OVERLAPPING, (1, 0, 4), (272, 112), ((0, 62, 139, 26), (1, 74, 151, 68), (4, 163, 254, 26),), ((1, 90, 93), (2, 111, 51), (3, 179, 51),)),
    (OUT_OF_ORDER, (2, 0, 4), (395, 112), ((0, 62, 139, 26), (2, 197, 274, 68), (4, 286, 377, 26),), ((1, 213, 93), (2, 234, 64),)),
    (ENQUEUE_DEQUEUE, None, (260, 54), ((0, 62, 139, 26), (2, 151, 242, 26),), ()),
    (ENQUEUE_DEQUEUE, (0,), (260, 70), ((0, 62, 139, 26), (2, 151, 242, 26),), ((1, 78, 51),)),
    (FAILED, (0,), (157, 70), ((0, 62, 139, 26),), ((1, 78, 51),)),
)

# A malformed text, whether it is one of certificates, and some of the texts that its page has.
FAULTS = (
    (
        "{:process 0, :type :invoke, :f :write, :value 1}\n"
        "{:process 1, :type :invoke, :f :read}\n"
        "{:process 0, :type :ok, :f :write, :value 1}\n"
        "{:process 1, :type :ok, :f :read, :value 1}\n"
        "{:process 0, :type :invoke, :f :read}\n"
        "{:process 1, :type :invoke, :f :write, :value 2}\n"
        "{:process 0, :type :invoke, :f :write, :value 3}\n"
        "{:process 0, :type :ok, :f :read, :value 1}\n",
        False,
        (
            '<p class="say">The text can be read, but it is no history. Event 6 invokes an operation of process 0, and '
            '<a class="ref" href="#o4"><b>#4</b> <code>read → ?</code></a> of that process is still outstanding.</p>',
            '<tr class="at"><th>7</th><td><mark>{:process 0, :type :invoke, :f :write, :value 3}</mark></td></tr><tr><th>8</th>',
            "<figcaption>The operation that is outstanding, event 4</figcaption>",
            'viewBox="0 0 341 80" width="511" height="120"',
            '<rect class="fill" x="156" y="26" width="68" height="18"/>',
            '<rect class="fill" x="168" y="52" width="91" height="18"/>',
            '<g class="cross"><title>event 6: H5</title><path d="M227 29l12 12m0 -12l-12 12"/><text x="243" y="39">invoke write</text></g>',
        ),
    ),
    (
        "{:process 0, :type :invoke, :f :enqueue, :value 1}\n"
        "{:process 0, :type :info, :f :enqueue, :value 1}\n"
        "{:process 0, :type :invoke, :f :enqueue, :value 2}\n",
        False,
        (
            'Event 2 is of process 0, which the :info at event 1 closed: <a class="ref" href="#o0"><b>#0</b> <code>enqueue 1 → ?</code></a> '
            "may have happened or not, so what it does next must be of another process.</p>",
            "<figcaption>The :info that closed the process, event 1</figcaption>",
            'viewBox="0 0 302 54" width="453" height="81"',
            '<text class="num on" x="180" y="12">2</text>',
            '<path d="M174 29l12 12m0 -12l-12 12"/><text x="190" y="39">invoke enqueue</text>',
        ),
    ),
    (
        "{:process 0, :type :invoke, :f :enqueue, :value 1}\n"
        "{:process 0, :type :ok, :f :enqueue, :value 1\n"
        "{:process 0, :type :invoke, :f :dequeue}",
        False,
        (
            "The history can’t be read. At byte 97 stands a key that is no keyword.</p>",
            "The map around it was opened at byte 51, in line 2. Was it meant to be closed?</p>",
            "<figcaption>E7 at byte 97</figcaption>",
            '<tr class="at"><th>3</th><td><mark>{</mark>:process 0, :type :invoke, :f :dequeue}</td>',
        ),
    ),
    (
        "{:process 0, :type :invoke, :f :enqueue, :value 007}",
        False,
        (
            "At byte 48 stands “007”, which is no keyword, integer or escape, and closes no bracket that is open.</p>",
            ":value <mark>007</mark>}</td>",
        ),
    ),
    (
        '{:process 0, :note "a\tb\n'
        "{:process",
        False,
        (
            "The text ends inside a string, at byte 33. It was opened at byte 19, in line 1.</p>",
            ":note <mark>&quot;</mark>a→b</td>",
            '<td>{:process<mark class="end">end of the text</mark></td>',
        ),
    ),
    (
        '{:process 0, :type :ok, :f :read, :note "</script><b>&amp;\x1b\u202eé"}',
        False,
        (
            "Event 0 completes an operation of process 0, which has none outstanding.</p>",
            ":note &quot;&lt;/script&gt;&lt;b&gt;&amp;amp;\\x1b\\xe2\\x80\\xaeé&quot;}</mark>",
        ),
    ),
    (
        "{:object 0, :order [0 2]}\n"
        "{:object 0, :order []}\n",
        True,
        (
            "The text can be read, but these are no certificates. Form 1 is a second certificate for the same object.</p>",
            "<figcaption>The first one for object 0, form 0</figcaption>",
            "<th>1</th><td><mark>{:object 0, :order [0 2]}</mark></td></tr><tr><th>2</th>",
        ),
    ),
    (
        '; a comment with { and "\n'
        '{:order [0 2], :object "}"} [1]\n',
        True,
        (
            "Form 0 is no certificate: a map with :object and :order, a vector of integers.</p>",
            "<th>2</th><td><mark>{:order [0 2], :object &quot;}&quot;}</mark> [1]</td>",
        ),
    ),
)
# The name of a file that has markup in it, and how a page has it.
MARKUP, ESCAPED = "<script>a<b>\"c\" & 'd' → é", "&lt;script&gt;a&lt;b&gt;&quot;c&quot; &amp; 'd' → é"


def drawn(program, history, its_order, name="history.edn"):
    """The page of a history with the order of its object, or with no certificate."""
    certificates = "" if its_order is None else order(*its_order)
    return program.run("draw", program.write(name, history), program.write(CERTIFICATES, certificates))


def pages_of_orders(program, report):
    """Each page has its texts. What is in the name of a file is no markup."""
    for number, (history, its_order, answer, texts) in enumerate(PAGES):
        ran = drawn(program, history, its_order, MARKUP)
        page = ran.out.decode()
        report.equal(f"draw: page {number}: status", (0 if answer == "yes" else 1, b""), (ran.status, ran.err))
        report.holds(f"draw: page {number}: class", f'<body class="{answer}">' in page, page[:500])
        for text in texts:
            report.holds(f"draw: page {number}: {text}", text in page, page)
        report.holds(f"draw: page {number}: markup", "<script" not in page and ESCAPED in page, page)


def numbers(pattern, text):
    """The numbers of each place that a pattern finds."""
    return [tuple(int(digits) for digits in found) for found in re.findall(pattern, text)]


def bars_and_points(program, report):
    """A page has one drawing of the expected size, with its bars and points. A point is the middle of its mark, seven from the corner."""
    for number, (history, its_order, size, bars, points) in enumerate(FIGURES):
        page = drawn(program, history, its_order).out.decode()
        report.equal(f"draw: line {number}: it is the only one", 1, page.count('<svg class="sys"'))
        line = page[page.index('<svg class="sys"') :].partition("</svg>")[0]
        report.equal(f"draw: line {number}: size", [size], numbers(r'viewBox="0 0 (\d+) (\d+)"', line))
        edges = numbers(r'data-op="(\d+)" id=[^/]*/title><a [^>]*><rect[^>]*><path class="edge" d="M(\d+) (\d+)H(\d+)V', line)
        report.equal(f"draw: line {number}: bars", list(bars), [(op, start, end, top) for op, start, top, end in edges])
        corners = numbers(r'data-rank="(\d+)"[^/]*/title><rect x="(\d+)" y="(\d+)"', line)
        report.equal(f"draw: line {number}: points", list(points), [(rank, x + 7, y + 7) for rank, x, y in corners])
        thread = "L".join(f"{x} {y}" for _, x, y in points)
        if len(points) > 1:
            report.holds(f"draw: line {number}: the thread", f'<path class="thread" d="M{thread}"/>' in line, line)


def pages_of_faults(program, report):
    """The place of each fault is marked, and what is wrong is said."""
    for number, (text, is_of_certificates, texts) in enumerate(FAULTS):
        name = program.write("<b>", text)
        files = (program.write("history.edn", ""), name) if is_of_certificates else (name,)
        ran = program.run("draw", *files)
        report.equal(f"draw: fault {number}: status", (2, b""), (ran.status, ran.err))
        for word in ("&lt;b&gt;", *texts):
            report.holds(f"draw: fault {number}: {word}", word in ran.out.decode(), ran.out.decode())
        report.holds(f"draw: fault {number}: markup", b"<b></p>" not in ran.out)


PARTS = (pages_of_orders, bars_and_points, pages_of_faults)
