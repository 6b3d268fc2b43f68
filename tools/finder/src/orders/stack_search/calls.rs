//! The calls of a stack that run.

use crate::kinds::Role;

/// A call that runs and will return.
#[derive(Clone, Copy)]
pub struct RunningCall {
    /// Its place among the calls.
    pub call: u32,
    end: u32,
    pub role: Role,
    /// A bit that no other call has that runs.
    pub bit: u64,
}

/// The calls that run and will return.
#[derive(Default)]
pub struct Running {
    /// In the order of their returns.
    pub calls: Vec<RunningCall>,
    taken: u64,
}

impl Running {
    /// Notes that a call begins. False where too many run.
    pub fn begin(&mut self, call: u32, end: u32, role: Role) -> bool {
        let Some(bit) = 1_u64.checked_shl(self.taken.trailing_ones()) else {
            return false;
        };
        self.taken |= bit;
        let at = self.calls.partition_point(|other| other.end < end);
        self.calls.insert(at, RunningCall { call, end, role, bit });
        true
    }

    /// Takes out the call that returns first.
    pub fn end_first(&mut self) {
        if !self.calls.is_empty() {
            let first = self.calls.remove(0);
            self.taken &= !first.bit;
        }
    }

    /// Of the calls that are not placed and do this, the first to return.
    pub fn first(&self, placed: u64, role: Role) -> Option<RunningCall> {
        let mut open = self.calls.iter().filter(|running| placed & running.bit == 0);
        open.find(|running| running.role == role).copied()
    }
}
