//! How long a content of a cell is asked for after it is set.

use crate::accesses::{Access, Need};

/// The most calls that are looked at of those that ask for a content.
const MOST_DEMANDS: usize = 1_000;

/// A call that asks for a content, and returns.
struct Demand {
    begin: u32,
    end: u32,
    place: usize,
    takes: bool,
}

/// What asks for a content that is set.
pub struct Hold {
    /// The last begin of such a call.
    pub until: u32,
    /// One that takes it away.
    pub taker: Option<usize>,
    /// When a call begins that sets it anew.
    pub next: u32,
}

/// The calls that ask for one content or set it, by their begins.
#[derive(Default)]
struct Content {
    demands: Vec<Demand>,
    /// The begins of the calls that set it.
    sources: Vec<u32>,
}

/// The same for each content.
pub struct Demands {
    contents: Vec<Content>,
}

/// The place of a content, which is put there if need be.
fn at(contents: &mut Vec<Content>, content: usize) -> &mut Content {
    if contents.len() <= content {
        contents.resize_with(content + 1, Content::default);
    }
    &mut contents[content]
}

impl Demands {
    /// Of calls that come in the order of their begins.
    pub fn of(accesses: &[Access]) -> Demands {
        let mut contents = Vec::new();
        for (place, access) in accesses.iter().enumerate() {
            let (begin, end) = (access.call.begin, access.call.end);
            if let Need::Is(content) = access.need
                && !access.call.is_pending()
            {
                let demand = Demand { begin, end, place, takes: access.sets.is_some() };
                at(&mut contents, content).demands.push(demand);
            }
            if let Some(content) = access.sets {
                at(&mut contents, content).sources.push(begin);
            }
        }
        Demands { contents }
    }

    /// What asks for the content, if it is set now, and returns before a call begins that can set
    /// it anew.
    pub fn hold(&self, content: usize, now: u32) -> Hold {
        let mut hold = Hold { until: now, taker: None, next: u32::MAX };
        let Some(Content { demands, sources }) = self.contents.get(content) else {
            return hold;
        };
        let after = sources.partition_point(|begin| *begin <= now);
        hold.next = sources.get(after).copied().unwrap_or(u32::MAX);
        let first = demands.partition_point(|demand| demand.begin <= now);
        let demands = demands[first..].iter().take(MOST_DEMANDS);
        for demand in demands.take_while(|demand| demand.begin < hold.next) {
            if demand.end < hold.next {
                hold.until = demand.begin;
                if demand.takes {
                    hold.taker = Some(demand.place);
                }
            }
        }
        hold
    }
}
