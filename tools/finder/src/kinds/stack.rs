//! Stacks: the value that went in last comes out first.

use super::{Container, ContainerOrders, Family, Function, Gives, Room, Words};
use crate::orders::{Pairing, searched_stack_order, stack_order};
use crate::reasons::stack_pairs;

static PUSH: Function = Function::putting("push", &STACK);
static POP: Function = Function::taking("pop", &STACK);

pub static STACK: Room = Room {
    word: "stack",
    functions: &[&PUSH, &POP],
    family: Family::Container(Container {
        gives: Gives::Last,
        orders: ContainerOrders {
            quick: |timeline, transfers| stack_order(timeline, transfers, Pairing::OnTop),
            other_pairs: |timeline, transfers| stack_order(timeline, transfers, Pairing::LastIn),
            by_contents: Some(searched_stack_order),
            are_slow: true,
        },
        patterns: |runs, _| stack_pairs(runs),
    }),
    words: Words {
        put: "pushed",
        seen: "popped",
        taken: "popped",
        out_of_date: "after another content had replaced it",
        content_title: "content after (bottom … top)",
        left_end: ", bottom at the left",
    },
};
