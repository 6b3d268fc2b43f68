//! The time limit of the search for evidence, and how far it is.

use crate::message::{Message, Progress, Reader};
use crate::program::note;
use crate::system::{catch_sigterm, got_sigterm};
use std::time::{Duration, Instant};

/// How often the limit is checked.
pub const BETWEEN_LIMIT_CHECKS: Duration = Duration::from_millis(10);

/// When the search for evidence began, and its most seconds, if they are given. SIGTERM ends it
/// too.
#[derive(Clone, Copy)]
pub struct Limit {
    begun: Instant,
    seconds: Option<u64>,
}

impl Limit {
    /// The search begins now.
    pub fn begin(seconds: Option<u64>) -> Limit {
        catch_sigterm();
        Limit { begun: Instant::now(), seconds }
    }

    fn elapsed(&self) -> Duration {
        self.begun.elapsed()
    }

    /// Whether the search must end.
    pub fn is_over(&self) -> bool {
        let is_late = |seconds| self.elapsed() >= Duration::from_secs(seconds);
        got_sigterm() || self.seconds.is_some_and(is_late)
    }
}

/// Tells how far `find` is, after 2, 4, 8 seconds, and so on.
pub struct ProgressTeller {
    limit: Limit,
    reader: Reader,
    all: usize,
    /// When it is told next, if it is told.
    next: Option<Duration>,
}

impl ProgressTeller {
    /// Of a search of `all` objects.
    pub fn new(limit: Limit, reader: Reader, all: usize, is_told: bool) -> ProgressTeller {
        ProgressTeller { limit, reader, all, next: is_told.then_some(Duration::from_secs(2)) }
    }

    fn tell(&self, done: usize, is_stopped: bool) {
        let (all, seconds) = (self.all, self.limit.elapsed().as_secs());
        let message = Message::Progress(Progress { done, all, seconds, is_stopped });
        note(format_args!("{}", message.line_for(self.reader)));
    }

    /// Tells how many objects are done, if it is time for that.
    pub fn tell_in_time(&mut self, done: usize) {
        if let Some(next) = self.next.filter(|next| self.limit.elapsed() >= *next) {
            self.tell(done, false);
            self.next = Some(next * 2);
        }
    }

    /// Tells how many objects were done, if these are not all.
    pub fn tell_at_the_end(&self, done: usize) {
        if done < self.all {
            self.tell(done, true);
        }
    }
}
