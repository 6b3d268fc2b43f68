//! What holds of all rooms.

use super::*;

#[test]
fn the_rooms_fit_together() {
    for kind in KINDS.iter().copied() {
        assert!(kind.functions.iter().all(|function| function.kind == kind), "{kind:?}");
        assert_eq!(super::kind(kind.word), Some(kind));
    }
    for own in functions() {
        assert_eq!(function(own.name.as_bytes()), Some(own));
    }
    let of_histories = functions().filter(|function| function.kind != &slot::SLOT);
    assert_eq!((of_histories.count(), FUNCTION_COUNT), (27, "twenty-seven"));
}

/// An operation on a cell has the effect that its reply tells.
#[test]
fn effects_are_what_operations_do() {
    let arguments = [
        Value::Nil,
        Value::Int(1),
        Value::Pair(1, 2),
        Value::Pair(2, 1),
        Value::Triple(1, 1, 2),
        Value::Triple(1, 3, 2),
    ];
    let ops = functions().flat_map(|function| arguments.map(|it| function.with(it)));
    for op in ops.flatten().filter(|op| op.kind().has_cells()) {
        let is_possible = |content: &Option<i64>| {
            op.kind().has_values_in_cells() || content.is_none() || *content == op.key()
        };
        for content in [None, Some(1), Some(2), Some(3)].into_iter().filter(is_possible) {
            let (reply, after) = op.next(content).expect("an operation on a cell");
            let Effect { need, sets } = op.effect(Some(reply)).expect("an effect");
            assert_eq!(sets.unwrap_or(content), after, "{op:?}");
            let is_met = match need {
                Need::Any => true,
                Need::Is(asked) => asked == content,
                Need::IsNot(asked) => asked != content,
            };
            assert!(is_met, "{op:?}");
            assert_eq!(op.function.reply(reply.value()), Some(reply), "{op:?}");
        }
    }
}
