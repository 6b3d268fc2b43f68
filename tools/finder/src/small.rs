//! Small histories that are drawn, and whether they have an order: for tests.

use crate::content::Content;
use crate::history::{End, ObjectHistory, Operation};
use crate::kinds::{KINDS, Kind, Op, Reply, Shape, Value, function};

/// The operation that a text names, as `cas 1 2`.
pub fn op(text: &str) -> Op {
    let mut words = text.split(' ');
    let name = words.next().expect("a name");
    let numbers: Vec<i64> = words.map(|word| word.parse().expect("an integer")).collect();
    let argument = match numbers[..] {
        [] => Value::Nil,
        [one] => Value::Int(one),
        [one, other] => Value::Pair(one, other),
        [one, other, another] => Value::Triple(one, other, another),
        _ => panic!("{text}"),
    };
    function(name.as_bytes()).and_then(|function| function.with(argument)).expect("an operation")
}

/// The containers.
pub fn containers() -> impl Iterator<Item = Kind> {
    KINDS.iter().copied().filter(|kind| kind.is_container())
}

/// A generator of numbers (xorshift: Marsaglia, Journal of Statistical Software 8, 2003).
pub struct Random(u64);

/// An operation under way: the place of its invocation, and its reply once it took effect.
struct Open {
    place: usize,
    reply: Option<Reply>,
}

impl Random {
    pub fn new(seed: u64) -> Random {
        Random(seed)
    }

    pub fn below(&mut self, bound: u64) -> u64 {
        self.0 ^= self.0 << 13;
        self.0 ^= self.0 >> 7;
        self.0 ^= self.0 << 17;
        (self.0 >> 20) % bound
    }

    fn value(&mut self) -> i64 {
        self.below(3) as i64
    }

    fn op(&mut self, kind: Kind) -> Op {
        let (value, other) = (self.value(), self.value());
        let function = kind.functions[self.below(kind.functions.len() as u64) as usize];
        let arguments = [
            Value::Nil,
            Value::Int(value),
            Value::Pair(value, other),
            Value::Triple(value % 2, other, self.0 as i64 % 3),
        ];
        arguments.into_iter().find_map(|argument| function.with(argument)).expect("its shape")
    }

    fn reply(&mut self, op: Op) -> Reply {
        match (op.function.reply, op.argument) {
            (Shape::Done, argument) => Reply::Value(argument.last()),
            (Shape::Swapped, Value::Pair(expected, new)) if self.below(2) == 0 => {
                Reply::Swapped(expected, new)
            }
            (Shape::Swapped, _) => Reply::NotSwapped,
            (Shape::Owner | Shape::Silent, _) => Reply::Value(None),
            (Shape::Flag, _) => Reply::Flag(self.below(2) == 0),
            (Shape::Number, _) => Reply::Value(Some(self.value())),
            _ if self.below(3) == 0 => Reply::Value(None),
            _ => Reply::Value(Some(self.value())),
        }
    }

    /// A history of a few operations, of which some overlap, and some are pending or failed.
    pub fn history(&mut self, kind: Kind) -> ObjectHistory {
        let count = 2 + self.below(7) as u32;
        let mut ops: Vec<Operation> = Vec::new();
        for number in 0..2 * count {
            let open: Vec<usize> = (0..ops.len()).filter(|k| ops[*k].is_pending()).collect();
            if open.is_empty() || open.len() < 4 && self.below(2) == 0 {
                ops.push(Operation { number, op: self.op(kind), end: End::Pending });
                continue;
            }
            let op = &mut ops[open[self.below(open.len() as u64) as usize]];
            let reply = self.reply(op.op);
            let failed = self.below(12) == 0;
            op.end = if failed { End::Failed } else { End::Returned { at: number, reply } };
        }
        ObjectHistory { object: 0, kind, ops }
    }

    /// A history as three processes record it of an object that is right, of which some operations
    /// never return.
    pub fn recorded(&mut self, kind: Kind, length: u32) -> ObjectHistory {
        let mut ops: Vec<Operation> = Vec::new();
        let mut content = Content::empty(kind);
        let mut open: Vec<Open> = Vec::new();
        for number in 0..length {
            if open.is_empty() || open.len() < 3 && self.below(2) == 0 {
                open.push(Open { place: ops.len(), reply: None });
                ops.push(Operation { number, op: self.op(kind), end: End::Pending });
                continue;
            }
            let mut own = open.swap_remove(self.below(open.len() as u64) as usize);
            own.reply = own.reply.or_else(|| Some(content.apply(ops[own.place].op)?.0));
            match (self.below(12), own.reply) {
                (0, _) | (_, None) => {}
                (1..4, _) => open.push(own),
                (_, Some(reply)) => ops[own.place].end = End::Returned { at: number, reply },
            }
        }
        ObjectHistory { object: 0, kind, ops }
    }

    /// A history of a queue, stack or heap as three processes record it, whose content is lost now
    /// and then, and of which some operations never return. Values repeat, or differ.
    pub fn crash(&mut self, kind: Kind) -> ObjectHistory {
        let values = [2, 3, 1_000_000][self.below(3) as usize];
        let mut ops: Vec<Operation> = Vec::new();
        let mut content = Content::empty(kind);
        let mut open: Vec<Open> = Vec::new();
        let length = 8 + self.below(10) as u32;
        for number in 0..length {
            if open.is_empty() || open.len() < 3 && self.below(2) == 0 {
                let puts = self.below(10) < 6;
                let op = loop {
                    let op = self.op(kind);
                    if op.puts().is_some() == puts {
                        break op.with_value(self.below(values) as i64);
                    }
                };
                open.push(Open { place: ops.len(), reply: None });
                ops.push(Operation { number, op, end: End::Pending });
                continue;
            }
            let mut own = open.swap_remove(self.below(open.len() as u64) as usize);
            if own.reply.is_none() {
                own.reply = content.apply(ops[own.place].op).map(|(reply, _)| reply);
            }
            match (self.below(12), own.reply) {
                (0, _) => {}
                (1..3, _) => open.push(own),
                (_, Some(reply)) => ops[own.place].end = End::Returned { at: number, reply },
                _ => {}
            }
            if self.below(4) == 0 {
                content = Content::empty(kind);
            }
        }
        ObjectHistory { object: 0, kind, ops }
    }
}

impl Op {
    /// The put of another value; of another operation this one.
    fn with_value(self, value: i64) -> Op {
        let argument = self.puts().map_or(self.argument, |_| Value::Int(value));
        Op { argument, ..self }
    }
}

/// Whether some order of the operations that are left is valid, by trying each that can be next.
pub fn has_order(left: &[Operation], content: &Content) -> bool {
    let Some(least) = left.iter().filter_map(Operation::returned).min() else {
        return true;
    };
    left.iter().enumerate().filter(|(_, o)| o.number < least).any(|(place, operation)| {
        let mut after = content.clone();
        let reply = after.apply(operation.op).map(|(reply, _)| reply);
        let fits = reply.is_some() && operation.reply().is_none_or(|own| Some(own) == reply);
        fits && has_order(&[&left[..place], &left[place + 1..]].concat(), &after)
    })
}
