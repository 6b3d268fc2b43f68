//! One pass from the bytes of a history to the operations of its objects. A file is read in pieces,
//! so that its text is never in memory as a whole. Threads find the maps of the next pieces while
//! one thread adds those of the pieces before to the history.

use crate::history::{End, History, Nemesis, ObjectHistory, Operation, Run};
use crate::kinds::Kind;
use crate::maps::{Event, EventType, Map, each_map, is_blank};
use crate::splitmix::NumberTable;
use std::collections::VecDeque;
use std::io::{self, Read};
use std::mem;
use std::sync::Arc;
use std::thread::{self, Builder as Thread, Scope, ScopedJoinHandle};

/// How many maps a history has at most.
const MOST_MAPS: u32 = 1_000_000;

/// The longest text that is read.
pub const LONGEST: u64 = 268_435_456;

/// How many bytes of a file are read at once.
const CHUNK: u64 = 1 << 19;

/// What a process does.
#[derive(Clone, Copy)]
enum Process {
    /// Its operation is outstanding: the object's place, and the operation's among those of the
    /// object and among all.
    Calls {
        object: usize,
        place: usize,
        run: usize,
    },
    Idle,
    /// After `:info`.
    Closed,
}

/// The objects that were named so far, and what each process does.
#[derive(Default)]
struct Builder {
    maps: u32,
    /// How many operations returned.
    returned: u32,
    objects: Vec<ObjectHistory>,
    places: NumberTable<u32, usize>,
    runs: Vec<Run>,
    nemeses: Vec<Nemesis>,
    processes: NumberTable<i64, Process>,
}

impl Builder {
    /// Notes the next map. `None`: the history can't have it.
    fn add(&mut self, map: Map) -> Option<()> {
        if self.maps == MOST_MAPS {
            return None;
        }
        match map {
            Map::OfNemesis { process, function } => {
                self.nemeses.push(Nemesis { number: self.maps, process, function });
            }
            Map::OfClient(event) if event.of_type == EventType::Invoke => self.invoke(&event)?,
            Map::OfClient(event) => self.complete(&event)?,
        }
        self.maps += 1;
        Some(())
    }

    fn invoke(&mut self, event: &Event) -> Option<()> {
        let number = self.maps;
        let op = event.function.with(event.value?)?;
        let object = self.place(event.object, op.kind());
        let history = &mut self.objects[object];
        let process = self.processes.entry(event.process).or_insert(Process::Idle);
        if history.kind != op.kind() || !matches!(process, Process::Idle) {
            return None;
        }
        let place = history.ops.len();
        history.ops.push(Operation { number, op, end: End::Pending });
        let run = self.runs.len();
        self.runs.push(Run { number, process: event.process as u64, completed: None });
        *process = Process::Calls { object, place, run };
        Some(())
    }

    fn place(&mut self, object: u32, kind: Kind) -> usize {
        *self.places.entry(object).or_insert_with(|| {
            self.objects.push(ObjectHistory { object, kind, ops: Vec::new() });
            self.objects.len() - 1
        })
    }

    fn complete(&mut self, event: &Event) -> Option<()> {
        let at = self.maps;
        let process = self.processes.get_mut(&event.process)?;
        let Process::Calls { object, place, run } = *process else {
            return None;
        };
        let history = &mut self.objects[object];
        let call = &mut history.ops[place];
        if event.function != call.op.function || event.object != history.object {
            return None;
        }
        (*process, call.end) = match event.of_type {
            EventType::Ok => {
                let reply = call.op.function.reply(event.value?)?;
                self.returned += 1;
                (Process::Idle, End::Returned { at, reply })
            }
            EventType::Fail => (Process::Idle, End::Failed),
            EventType::Info => (Process::Closed, End::Pending),
            EventType::Invoke => return None,
        };
        self.runs[run].completed = Some(at);
        Some(())
    }

    fn history(self) -> History {
        let Builder { maps, mut objects, runs, nemeses, .. } = self;
        objects.sort_unstable_by_key(|history| history.object);
        History { objects, runs, nemeses, maps }
    }
}

/// Reads a history: the operations of each object that some invocation of a client names. `None`:
/// the text is no history.
pub fn read_history(text: &[u8]) -> Option<History> {
    if text.len() as u64 > LONGEST {
        return None;
    }
    let mut builder = Builder::default();
    let taken = each_map(text, |map| builder.add(map))?;
    is_blank(&text[taken..]).then(|| builder.history())
}

/// The pieces of a text that a source gives. Each ends with a line, where the source gives lines.
struct Pieces<S> {
    source: S,
    /// How many bytes were read.
    length: u64,
    /// The beginning of a line, which the next piece ends.
    rest: Vec<u8>,
}

impl<S: Read> Pieces<S> {
    fn of(source: S) -> Pieces<S> {
        Pieces { source, length: 0, rest: Vec::new() }
    }

    /// The next piece. `None`: there is none.
    fn next(&mut self) -> io::Result<Option<Vec<u8>>> {
        let mut piece = mem::take(&mut self.rest);
        let read = self.source.by_ref().take(CHUNK).read_to_end(&mut piece)?;
        self.length += read as u64;
        let is_last = (read as u64) < CHUNK;
        if !is_last && let Some(at) = piece.iter().rposition(|byte| *byte == b'\n') {
            self.rest = piece.split_off(at + 1);
        }
        Ok((!piece.is_empty()).then_some(piece))
    }
}

/// The maps of a piece, if it begins between two maps.
struct Found {
    maps: Vec<Map>,
    /// How many bytes they take. `None`: a history can't have what follows them.
    taken: Option<usize>,
}

impl Found {
    fn of(piece: &[u8]) -> Found {
        let mut maps = Vec::new();
        let taken = each_map(piece, |map| {
            maps.push(map);
            Some(())
        });
        Found { maps, taken }
    }
}

/// A piece whose maps are found here, or by a thread.
enum Finding<'s> {
    Here,
    There(ScopedJoinHandle<'s, Found>),
}

impl<'s> Finding<'s> {
    /// Begins with a piece in a thread, where one is to be had.
    fn begin(scope: &'s Scope<'s, '_>, piece: &Arc<Vec<u8>>) -> Finding<'s> {
        let own = Arc::clone(piece);
        let begun = Thread::new().spawn_scoped(scope, move || Found::of(&own));
        begun.map_or(Finding::Here, Finding::There)
    }

    /// The maps of this piece. A thread that failed has found none.
    fn end(self, piece: &[u8]) -> Found {
        let found = match self {
            Finding::Here => None,
            Finding::There(thread) => thread.join().ok(),
        };
        found.unwrap_or_else(|| Found::of(piece))
    }
}

/// A history of which some pieces were read.
#[derive(Default)]
struct Reading {
    builder: Builder,
    /// What was read and has no whole map yet.
    rest: Vec<u8>,
    /// How long the rest was when no map was found in it.
    tried: usize,
}

impl Reading {
    /// Adds the maps of a piece. If a map or a comment began before the piece, they are found
    /// anew together with what is left of the pieces before. `None`: it is no history.
    fn add(&mut self, piece: &[u8], found: Found) -> Option<()> {
        if !self.rest.is_empty() {
            self.rest.extend_from_slice(piece);
            return self.add_rest();
        }
        found.maps.into_iter().try_for_each(|map| self.builder.add(map))?;
        self.rest.extend_from_slice(&piece[found.taken?..]);
        self.leave_out_blanks();
        Some(())
    }

    /// Adds the maps at the front of the rest. If there was none, then only when it is twice as
    /// long.
    fn add_rest(&mut self) -> Option<()> {
        if self.rest.len() < 2 * self.tried {
            return Some(());
        }
        let taken = each_map(&self.rest, |map| self.builder.add(map))?;
        self.rest.drain(..taken);
        self.tried = if taken == 0 { self.rest.len() } else { 0 };
        self.leave_out_blanks();
        Some(())
    }

    /// Forgets lines without a map, so that the next piece begins between two maps.
    fn leave_out_blanks(&mut self) {
        if self.rest.ends_with(b"\n") && is_blank(&self.rest) {
            self.rest.clear();
        }
    }

    /// Everything was read. `None`: it is no history.
    fn end(mut self) -> Option<Builder> {
        self.tried = 0;
        self.add_rest()?;
        is_blank(&self.rest).then_some(self.builder)
    }
}

/// The same for the text that a source gives, by this many threads.
pub fn read_history_from(source: impl Read, workers: usize) -> io::Result<Option<History>> {
    let (mut pieces, mut reading) = (Pieces::of(source), Reading::default());
    thread::scope(|scope| {
        let mut ahead = VecDeque::new();
        loop {
            while ahead.len() < workers
                && let Some(piece) = pieces.next()?
            {
                let piece = Arc::new(piece);
                let finding = match workers {
                    1 => Finding::Here,
                    _ => Finding::begin(scope, &piece),
                };
                ahead.push_back((piece, finding));
            }
            if pieces.length > LONGEST {
                return Ok(None);
            }
            let Some((piece, finding)) = ahead.pop_front() else {
                return Ok(reading.end().map(Builder::history));
            };
            if reading.add(&piece, finding.end(&piece)).is_none() {
                return Ok(None);
            }
        }
    })
}

/// How many operations of the text that a source gives returned. It reads no further than where
/// `enough` of them have. `None`: the text, as far as it was read, is no history.
pub fn count_returned(source: impl Read, enough: u32) -> io::Result<Option<u32>> {
    let (mut pieces, mut reading) = (Pieces::of(source), Reading::default());
    while reading.builder.returned < enough {
        let Some(piece) = pieces.next()? else {
            return Ok(reading.end().map(|builder| builder.returned));
        };
        let is_read = pieces.length <= LONGEST && reading.add(&piece, Found::of(&piece)).is_some();
        if !is_read {
            return Ok(None);
        }
    }
    Ok(Some(reading.builder.returned))
}
