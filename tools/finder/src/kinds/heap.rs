//! Heaps: the least value comes out first.

use super::{Container, ContainerOrders, Family, Function, Gives, Room, Shape, Words};
use crate::orders::heap_order;
use crate::reasons::extracts;

static INSERT: Function =
    Function { argument: Shape::Number, ..Function::putting("insert", &HEAP) };

static EXTRACT_MIN: Function = Function {
    other_names: &["extract_min"],
    reply: Shape::NumberOrNothing,
    ..Function::taking("extract-min", &HEAP)
};

pub static HEAP: Room = Room {
    word: "heap",
    functions: &[&INSERT, &EXTRACT_MIN],
    family: Family::Container(Container {
        gives: Gives::Least,
        orders: ContainerOrders {
            quick: |timeline, transfers| heap_order(timeline, &transfers, true),
            other_pairs: |timeline, transfers| heap_order(timeline, &transfers, false),
            by_contents: None,
            are_slow: false,
        },
        patterns: extracts,
    }),
    words: Words {
        put: "inserted",
        seen: "extracted",
        taken: "extracted",
        out_of_date: "after another content had replaced it",
        content_title: "content after (least … greatest)",
        left_end: ", least at the left",
    },
};
