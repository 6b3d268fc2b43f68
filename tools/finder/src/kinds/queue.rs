//! Queues: the value that went in first comes out first.

use super::{Container, ContainerOrders, Family, Function, Gives, Room, Words};
use crate::orders::{queue_order, searched_queue_order};
use crate::reasons::queue_pairs;

static ENQUEUE: Function = Function::putting("enqueue", &QUEUE);
static DEQUEUE: Function = Function::taking("dequeue", &QUEUE);

pub static QUEUE: Room = Room {
    word: "queue",
    functions: &[&ENQUEUE, &DEQUEUE],
    family: Family::Container(Container {
        gives: Gives::First,
        orders: ContainerOrders {
            quick: |timeline, transfers| queue_order(timeline, transfers, false),
            other_pairs: |timeline, transfers| match transfers.unknown[..] {
                [] => None,
                _ => queue_order(timeline, transfers, true),
            },
            by_contents: Some(searched_queue_order),
            are_slow: false,
        },
        patterns: |runs, _| queue_pairs(runs),
    }),
    words: Words {
        put: "enqueued",
        seen: "dequeued",
        taken: "dequeued",
        out_of_date: "after another content had replaced it",
        content_title: "content after (first … last)",
        left_end: ", first at the left",
    },
};
