//! The page of a history that was judged, or checked by certificates.

use crate::drawing::{
    DrawnPart, Subject, draw_impossible, draw_open, draw_refused, draw_uncertified, draw_valid,
};
use crate::elements::{elements_in, value_in};
use crate::figures::count_text;
use crate::page::{ObjectRow, Page, PageKind, html_of};
use crate::timeline::{ObjectDrawing, Span, Spans, spans};
use crate::words::Words;
use finder::{Cut, Decision, End, Evidence, History, ObjectHistory, Pattern, Sentence, part_by};
use std::borrow::Cow;
use verdict::{Answer, Refusal};

/// The most operations that a page of several objects draws. With the longest numbers and values
/// one takes some 2,200 bytes, so such a page has less than a megabyte.
const BUDGET: usize = 440;

/// What of a history is drawn.
#[derive(Clone, Copy, Debug, Default, PartialEq, Eq)]
pub struct Options {
    /// This object alone.
    pub object: Option<u32>,
    /// The maps from this one on, and before that one, in place of those that are chosen.
    pub from: Option<u32>,
    pub to: Option<u32>,
}

/// A history with the names of its file and of its certificates' file, the lines that were said of
/// it, what of it is drawn, and the words of the page.
#[derive(Clone, Copy)]
pub struct Drawn<'a> {
    pub history: &'a History,
    pub name: &'a str,
    pub certificates: Option<&'a str>,
    pub lines: &'a str,
    pub options: Options,
    pub words: Words<'a>,
}

/// An order of an object's operations, which may be any.
#[derive(Clone, Debug, PartialEq, Eq)]
pub struct Order {
    pub object: u32,
    pub entries: Vec<i64>,
}

/// The number that some bytes spell.
fn number_in<N: std::str::FromStr>(bytes: &[u8]) -> Option<N> {
    std::str::from_utf8(bytes).ok()?.parse().ok()
}

/// The orders in a text of certificates that was read.
pub fn orders_in(text: &[u8]) -> Vec<Order> {
    let order_of = |form: &[u8]| {
        let order = value_in(form, b":order")?;
        let entries = elements_in(order, 1).filter_map(|entry| number_in(entry.of(order)));
        Some(Order { object: number_in(value_in(form, b":object")?)?, entries: entries.collect() })
    };
    elements_in(text, 0).filter_map(|form| order_of(form.of(text))).collect()
}

/// The order that was found of an object.
fn found_order(decision: &Decision) -> Option<Order> {
    match &decision.evidence {
        Evidence::Order(order) => Some(Order {
            object: decision.object,
            entries: order.iter().map(|number| i64::from(*number)).collect(),
        }),
        _ => None,
    }
}

fn order_of(orders: &[Order], object: u32) -> Option<&[i64]> {
    let order = orders.iter().find(|order| order.object == object)?;
    Some(&order.entries)
}

/// What a page is made of: the answer and its word in the title, the rows of the table of objects,
/// the drawings and the sentences.
struct Parts {
    answer: PageKind,
    word: String,
    rows: Vec<ObjectRow>,
    drawings: Vec<ObjectDrawing>,
    sentences: Vec<Spans>,
}

/// The row of the object with this answer.
fn row_of(object: &ObjectHistory, answer: &'static str, is_faulty: bool) -> ObjectRow {
    let count = |end: End| object.ops.iter().filter(|op| op.end == end).count();
    let failed = count(End::Failed);
    ObjectRow {
        object: object.object,
        kind: object.kind,
        operations: object.ops.len() - failed,
        pending: count(End::Pending),
        failed,
        answer,
        is_faulty,
    }
}

/// As `1 map`, or `2 maps`.
fn number_of(count: usize, one: &str, several: &str) -> String {
    format!("{} {}", count_text(count), if count == 1 { one } else { several })
}

/// That the history has no object with the number that is asked for.
fn absent_sentence(object: u32) -> Spans {
    spans!["The history has no object ", object, "."]
}

/// Which objects of the list are not drawn, if some are not.
fn not_drawn_sentence(rows: &[ObjectRow], drawings: &[ObjectDrawing]) -> Option<Spans> {
    let is_drawn = |row: &&ObjectRow| drawings.iter().any(|it| it.object == row.object);
    let mut left_out = rows.iter().filter(|row| !is_drawn(row));
    let first = left_out.next()?.object;
    let mut sentence = match left_out.count() {
        0 => spans![Span::Aside("Not drawn: "), Span::Aside("object "), Span::Object(first)],
        more => spans![Span::Aside("Not drawn: "), more + 1, Span::Aside(" objects")],
    };
    sentence.extend(spans![
        Span::Aside(". "),
        Span::OnlyObject(first),
        Span::Aside(" draws object "),
        Span::Object(first),
        Span::Aside(".")
    ]);
    Some(sentence)
}

/// The sentence on a linearizable history of n objects.
fn valid_sentence(objects: usize) -> Spans {
    spans![match objects {
        0 => "The history is linearizable: it has no operations.",
        1 => {
            "The history is linearizable: this order is valid. Each operation that returned has its \
             place in the order between its invocation and its return, and each reply is what the \
             object gives there."
        }
        _ => {
            "The history is linearizable: these orders, one for each object, are valid. Each \
             operation that returned has its place in the order between its invocation and its \
             return, and each reply is what the object gives there."
        }
    }]
}

/// The sentence after each refusal.
fn coda() -> Spans {
    spans![
        Span::Aside("This refuses the order, and not the history: another order may be valid. "),
        Span::Command("fcbench judge HISTORY"),
        Span::Aside(" looks for one.")
    ]
}

/// The sentence after that there is no certificate.
fn uncertified_coda() -> Spans {
    spans![
        Span::Aside("This says nothing of the history. "),
        Span::Command("fcbench judge HISTORY"),
        Span::Aside(" looks for an order.")
    ]
}

/// The sentence on an object that has a certificate and is not in the history.
fn strange_sentence(object: u32) -> Spans {
    spans![
        "The certificates give an order for object ",
        object,
        ", and no invocation of the history names it. ",
        "Each certificate must be of an object of the history."
    ]
}

/// The sentence on an object that stays open.
fn open_sentence(object: u32, answer: &'static str) -> Spans {
    spans![
        "No order was found for object ",
        Span::Object(object),
        ", and none was excluded: ",
        answer,
        ". So the history is not decided."
    ]
}

/// The row of an object. Those before the refused one were accepted, and those after it were
/// not looked at.
fn refused_row(refusal: &Refusal, object: &ObjectHistory) -> ObjectRow {
    let are_all_valid = matches!(refusal, Refusal::StrangeObject { .. });
    if are_all_valid || object.object < refusal.object() {
        row_of(object, "valid", false)
    } else if object.object == refusal.object() {
        row_of(object, refusal.code(), true)
    } else {
        row_of(object, "not looked at", false)
    }
}

/// The drawing of an object of the history.
fn refused_drawing(refusal: &Refusal, subject: &Subject, orders: &[Order]) -> ObjectDrawing {
    let number = subject.object.object;
    match (refusal, order_of(orders, number)) {
        (Refusal::BadOrder { object, fault }, Some(order)) if *object == number => {
            draw_refused(subject, order, *fault)
        }
        (Refusal::NoCertificate { object }, _) if *object == number => draw_uncertified(subject),
        _ => draw_valid(subject, None),
    }
}

/// The part of an object's history that a reason names; without one, all of it.
fn part_of<'a>(object: &'a ObjectHistory, cuts: &[Cut], sentence: &'a Sentence) -> DrawnPart<'a> {
    let part = match part_by(object, cuts) {
        Some(part) => Cow::Owned(part),
        None => Cow::Borrowed(object),
    };
    let from = cuts.iter().rev().find_map(|cut| match cut {
        Cut::From(number) => Some(*number),
        _ => None,
    });
    let other = cuts.iter().rev().find_map(|cut| match cut {
        Cut::Cell { other, .. } => Some(*other),
        _ => None,
    });
    DrawnPart { history: part, from, other, sentence }
}

impl<'a> Drawn<'a> {
    fn object(&self, number: u32) -> Option<&'a ObjectHistory> {
        self.history.objects.iter().find(|object| object.object == number)
    }

    /// An object that is drawn, alone on its page or not.
    fn subject(&self, object: &'a ObjectHistory, has_room: bool) -> Subject<'a> {
        Subject {
            history: self.history,
            object,
            options: self.options,
            words: self.words,
            has_room,
        }
    }

    /// Which texts the page is of, and what is in the history.
    fn facts(&self, rows: &[ObjectRow]) -> String {
        let sum = |count: fn(&ObjectRow) -> usize| rows.iter().map(count).sum();
        let (pending, failed) = (sum(|row| row.pending), sum(|row| row.failed));
        let certificates = self.certificates.map(|name| format!(" with {name}"));
        let mut facts = vec![
            format!("{}{}", self.name, certificates.unwrap_or_default()),
            number_of(self.history.maps as usize, "map", "maps"),
            number_of(sum(|row| row.operations), "operation", "operations"),
            number_of(rows.len(), "object", "objects"),
        ];
        if pending > 0 {
            facts.push(number_of(pending, "pending", "pending"));
        }
        if failed > 0 {
            facts.push(number_of(failed, "failed", "failed"));
        }
        facts.join(" · ")
    }

    fn page(&self, parts: Parts) -> String {
        let Parts { answer, word, rows, drawings, mut sentences } = parts;
        let absent = self.options.object.filter(|object| self.object(*object).is_none());
        sentences.extend(absent.map(absent_sentence));
        sentences.extend(not_drawn_sentence(&rows, &drawings));
        html_of(&Page {
            answer,
            title: &format!("{word}: {}", self.name),
            facts: &self.facts(&rows),
            sentences: &sentences,
            lines: self.lines,
            objects: &rows,
            drawings: &drawings,
            place: None,
            quoted: "",
            words: self.words,
        })
    }

    /// The drawings of objects that have these orders, as many as there is room for.
    fn valid_drawings(&self, orders: &[Order]) -> Vec<ObjectDrawing> {
        let mut drawings = Vec::new();
        let mut drawn = 0;
        for object in &self.history.objects {
            if self.options.object.is_some_and(|wanted| wanted != object.object) {
                continue;
            }
            let Some(order) = order_of(orders, object.object) else {
                continue;
            };
            let is_alone = self.history.objects.len() == 1 || self.options.object.is_some();
            let drawing = draw_valid(&self.subject(object, is_alone), Some(order));
            drawn += drawing.extent.drawn.max(1);
            if drawings.is_empty() || drawn <= BUDGET {
                drawings.push(drawing);
            }
            if drawn >= BUDGET {
                break;
            }
        }
        drawings
    }

    fn valid_page(&self, orders: &[Order]) -> String {
        let objects = &self.history.objects;
        self.page(Parts {
            answer: PageKind::Yes,
            word: "yes".into(),
            rows: objects.iter().map(|object| row_of(object, "valid", false)).collect(),
            drawings: self.valid_drawings(orders),
            sentences: vec![valid_sentence(objects.len())],
        })
    }

    fn refused_page(&self, orders: &[Order], refusal: &Refusal) -> String {
        let shown = self.options.object.unwrap_or(refusal.object());
        let object = self.object(shown);
        let drawing =
            object.map(|object| refused_drawing(refusal, &self.subject(object, true), orders));
        let answer = match refusal {
            Refusal::NoCertificate { .. } => PageKind::NoOrder,
            _ => PageKind::No,
        };
        self.page(Parts {
            answer,
            word: format!("no {}", refusal.code()),
            rows: self.history.objects.iter().map(|object| refused_row(refusal, object)).collect(),
            drawings: drawing.into_iter().collect(),
            sentences: vec![match refusal {
                Refusal::StrangeObject { object } => strange_sentence(*object),
                Refusal::NoCertificate { .. } => uncertified_coda(),
                _ => coda(),
            }],
        })
    }

    /// The drawing of an object of which this was said, if it has no order.
    fn decided_drawing(
        &self,
        object: &'a ObjectHistory,
        answer: Option<Answer>,
        decision: Option<&Decision>,
    ) -> ObjectDrawing {
        let subject = self.subject(object, true);
        match (answer, decision.map(|decision| &decision.evidence)) {
            (Some(Answer::Impossible), Some(Evidence::Reason(reason))) => {
                draw_impossible(&subject, &part_of(object, &reason.cuts, &reason.sentence))
            }
            (Some(Answer::Impossible), _) => {
                let sentence = Sentence::of_pattern(object.kind, None, Pattern::General);
                draw_impossible(&subject, &part_of(object, &[], &sentence))
            }
            (None, _) => {
                let order = decision.and_then(found_order);
                draw_valid(&subject, order.as_ref().map(|order| order.entries.as_slice()))
            }
            (Some(answer), _) => draw_open(&subject, open_sentence(object.object, answer.word())),
        }
    }

    fn open_page(&self, answers: &[(u32, Answer)], decisions: &[Decision]) -> String {
        let is_impossible = |(_, answer): &&(u32, Answer)| *answer == Answer::Impossible;
        let (faulty, worst) =
            *answers.iter().find(is_impossible).or(answers.first()).expect("some answer");
        let answer_of = |number| {
            answers.iter().find(|(object, _)| *object == number).map(|(_, answer)| *answer)
        };
        let row = |object: &ObjectHistory| {
            let answer = answer_of(object.object).map_or("valid", Answer::word);
            row_of(object, answer, object.object == faulty)
        };
        let shown = self.options.object.unwrap_or(faulty);
        let decision = decisions.iter().find(|decision| decision.object == shown);
        let drawing = self
            .object(shown)
            .map(|object| self.decided_drawing(object, answer_of(shown), decision));
        let (answer, word, sentences) = match worst {
            Answer::Impossible => (PageKind::Impossible, "impossible", Vec::new()),
            _ if shown == faulty => (PageKind::Open, "open", Vec::new()),
            answer => (PageKind::Open, "open", vec![open_sentence(faulty, answer.word())]),
        };
        self.page(Parts {
            answer,
            word: word.into(),
            rows: self.history.objects.iter().map(row).collect(),
            drawings: drawing.into_iter().collect(),
            sentences,
        })
    }

    /// The page of a history that was judged, with what the finder found of each object. Of the
    /// objects that are in no answer the orders are valid.
    pub fn judged_page(&self, decisions: &[Decision], answers: &[(u32, Answer)]) -> String {
        if answers.is_empty() {
            let orders: Vec<Order> = decisions.iter().filter_map(found_order).collect();
            self.valid_page(&orders)
        } else {
            self.open_page(answers, decisions)
        }
    }

    /// The page of a history that was checked by these orders, and why they are refused if they
    /// are.
    pub fn checked_page(&self, orders: &[Order], refusal: Option<&Refusal>) -> String {
        match refusal {
            None => self.valid_page(orders),
            Some(refusal) => self.refused_page(orders, refusal),
        }
    }
}
