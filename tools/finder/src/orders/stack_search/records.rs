//! The steps that led to each state, from which an order is read.

/// A step from one state to the next. States are identified by the steps that led to them, calls by
/// their places.
#[derive(Clone, Copy)]
pub enum Step {
    Begin,
    /// A push. It led there from `count` states, whose origins begin at `first`.
    Push {
        first: u32,
        count: u32,
    },
    /// A pop, and the content that it left.
    Pop {
        before: u32,
        call: u32,
        left: u32,
    },
    /// A pop that is pending, and the content that it left.
    PendingPop {
        before: u32,
        left: u32,
    },
    /// A push that is pending, whose value is popped at once.
    PendingPush {
        before: u32,
        uses: u32,
    },
    /// A call that left the content as it was, or the push or pop of a value that is popped at
    /// once.
    Still {
        before: u32,
        call: u32,
    },
}

/// Where a push may have come from: the content, and the step that led to it; and the call.
#[derive(Clone, Copy)]
pub struct Origin {
    pub content: u32,
    pub step: u32,
    pub call: u32,
}

/// One place of an order.
#[derive(Clone, Copy)]
pub enum Placed {
    Call(u32),
    PendingPop,
    PendingPush(u32),
}

/// The steps by their numbers. The first one is the begin.
pub struct Records {
    steps: Vec<Step>,
    origins: Vec<Origin>,
}

impl Records {
    pub fn new() -> Records {
        Records { steps: vec![Step::Begin], origins: Vec::new() }
    }

    /// How much is kept.
    pub fn len(&self) -> usize {
        self.steps.len() + self.origins.len()
    }

    /// Adds a step.
    pub fn add(&mut self, step: Step) -> u32 {
        self.steps.push(step);
        self.steps.len() as u32 - 1
    }

    /// Adds a push that comes from one of these. The first one is taken where it does not matter.
    pub fn add_push(&mut self, origins: &[Origin]) -> u32 {
        let first = self.origins.len() as u32;
        self.origins.extend_from_slice(origins);
        self.add(Step::Push { first, count: origins.len() as u32 })
    }

    /// The origin of a push with this content, if it matters.
    fn origin(&self, first: u32, count: u32, wanted: Option<u32>) -> Option<Origin> {
        let origins = &self.origins[first as usize..][..count as usize];
        let is_wanted = |origin: &&Origin| wanted.is_none_or(|content| content == origin.content);
        origins.iter().find(is_wanted).copied()
    }

    /// The order that a step ends, the last call first. `None`: the steps do not fit.
    pub fn trace(&self, last: u32) -> Option<Vec<Placed>> {
        let mut placed = Vec::new();
        // the contents that must be below the values that were popped
        let mut wanted = Vec::new();
        let mut at = last;
        loop {
            let (one, before) = match self.steps[at as usize] {
                Step::Begin => return Some(placed),
                Step::Push { first, count } => {
                    let origin = self.origin(first, count, wanted.pop())?;
                    (Placed::Call(origin.call), origin.step)
                }
                Step::Pop { before, call, left } => {
                    wanted.push(left);
                    (Placed::Call(call), before)
                }
                Step::PendingPop { before, left } => {
                    wanted.push(left);
                    (Placed::PendingPop, before)
                }
                Step::PendingPush { before, uses } => (Placed::PendingPush(uses), before),
                Step::Still { before, call } => (Placed::Call(call), before),
            };
            placed.push(one);
            at = before;
        }
    }
}
