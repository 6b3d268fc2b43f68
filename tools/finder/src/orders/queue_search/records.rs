//! The steps that led to each state, from which an order is read.

/// A step from one state to the next. Calls are identified by their places.
#[derive(Clone, Copy)]
pub enum Step {
    Begin,
    /// A put and a removal.
    Pair {
        put: u32,
        take: u32,
    },
    /// A put that is pending and a removal: how many pending puts of the value are used by then,
    /// and the last step of this kind before it.
    Spare {
        put: u32,
        take: u32,
        value: u32,
        used: u32,
        last: u32,
    },
    /// A call that finds nothing.
    Empty {
        call: u32,
    },
}

#[derive(Clone, Copy)]
struct Record {
    /// The number of the step before.
    before: u32,
    step: Step,
}

/// The number of the begin.
pub const BEGIN: u32 = 0;

/// The steps by their numbers. Each has a higher one than those before it.
pub struct Records {
    records: Vec<Record>,
}

impl Records {
    pub fn new() -> Records {
        Records { records: vec![Record { before: BEGIN, step: Step::Begin }] }
    }

    pub fn len(&self) -> usize {
        self.records.len()
    }

    /// Adds a step. There are fewer than 32 bits can number, as the steps of a search are bounded.
    pub fn add(&mut self, before: u32, step: Step) -> u32 {
        self.records.push(Record { before, step });
        self.records.len() as u32 - 1
    }

    /// How many pending puts of a value are used, where this is the last step that used one.
    pub fn used(&self, mut last: u32, value: u32) -> u32 {
        while let Step::Spare { value: other, used, last: before, .. } =
            self.records[last as usize].step
        {
            if other == value {
                return used;
            }
            last = before;
        }
        0
    }

    /// Notes that a step and those before it are kept.
    pub fn keep(&self, kept: &mut [bool], last: u32) {
        let mut at = last as usize;
        while !kept[at] {
            kept[at] = true;
            at = self.records[at].before as usize;
        }
    }

    /// Drops the steps that are not kept: the new numbers of the others.
    pub fn drop_others(&mut self, kept: &[bool]) -> Vec<u32> {
        let mut numbers: Vec<u32> = Vec::with_capacity(self.records.len());
        let mut records = Vec::new();
        for (mut record, kept) in self.records.iter().copied().zip(kept) {
            numbers.push(records.len() as u32);
            if *kept {
                record.before = numbers[record.before as usize];
                if let Step::Spare { last, .. } = &mut record.step {
                    *last = numbers[*last as usize];
                }
                records.push(record);
            }
        }
        self.records = records;
        numbers
    }

    /// The steps up to this one.
    pub fn trace(&self, last: u32) -> Vec<Step> {
        let mut steps = Vec::new();
        let mut at = last;
        while at != BEGIN {
            let record = self.records[at as usize];
            steps.push(record.step);
            at = record.before;
        }
        steps.reverse();
        steps
    }
}
