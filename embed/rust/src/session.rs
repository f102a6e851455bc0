//! Runs in pieces.
use crate::error::Error;
use crate::image::{Opened, Pair};
use crate::raw;
use crate::terms::Terms;
use std::sync::Arc;
use std::{fmt, mem};

/// Why a step ended.
#[derive(Clone, Copy, Debug, PartialEq, Eq)]
pub enum State {
    /// The run has ended with this exit word.
    Ended(u32),
    /// The whole piece is read, more has to come, and a byte is asked for.
    Wants,
    /// The room is full, and there is more to put out.
    Full,
    /// The turns are made.
    Paused,
    /// [`Error::Output`]: there is more to put out than is granted, and what is granted was put out.
    /// [`Error::Memory`]: memory was refused; nothing is lost, and a further step goes on.
    Stopped(Error),
}

/// What a step did.
#[derive(Clone, Copy, Debug, PartialEq, Eq)]
#[non_exhaustive]
pub struct Step {
    /// How many bytes of the piece were read.
    pub read: usize,
    /// How many bytes stand at the front of the room.
    pub written: usize,
    /// The turns of the run so far.
    pub turns: u64,
    /// Why it ended.
    pub state: State,
}

/// A run in pieces, which never waits.
///
/// ```
/// use geyserpan::{Image, State, Terms};
///
/// # fn main() -> Result<(), geyserpan::Error> {
/// # let bytes = geyserpan::assemble(
/// #     b".services exit,get,put\n.function main,leaf,0,0,37\n.fuel 37\n ta 1\n inc %o0\n ta 2\n \
/// #     ta 1\n inc %o0\n ta 2\n ta 1\n inc %o0\n ta 2\n mov 0,%o0\n ta 0\n",
/// # )?;
/// let mut session = Image::open(&bytes, &Terms::new())?.session()?;
/// let mut room = [0; 16];
/// let step = session.step(1000, b"HA", false, &mut room);
/// assert_eq!((&room[..step.written], step.state), (&b"IB"[..], State::Wants));
/// let step = session.step(1000, b"L", false, &mut room);
/// assert_eq!((&room[..step.written], step.state), (&b"M"[..], State::Ended(0)));
/// # Ok(()) }
/// ```
pub struct Session {
    opened: Arc<Opened>,
    pair: Pair,
    terms: Terms,
}

impl fmt::Debug for Session {
    fn fmt(&self, f: &mut fmt::Formatter<'_>) -> fmt::Result {
        f.debug_struct("Session").field("facts", &self.opened.facts).field("terms", &self.terms).finish_non_exhaustive()
    }
}

impl Session {
    /// A run that was begun.
    pub(crate) fn new(opened: Arc<Opened>, pair: Pair, terms: Terms) -> Session {
        Session { opened, pair, terms }
    }

    /// Goes on for at most so many turns with the next piece of the input, behind which there is none where `last` is
    /// set. What it puts out stands at the front of the room.
    #[must_use]
    pub fn step(&mut self, turns: u64, piece: &[u8], last: bool, room: &mut [u8]) -> Step {
        // SAFETY: the room is a slice.
        unsafe { self.step_at(turns, piece, last, room.as_mut_ptr(), room.len()) }
    }

    /// The same into what a vector has room for.
    pub(crate) fn step_behind(&mut self, turns: u64, piece: &[u8], last: bool, output: &mut Vec<u8>) -> Step {
        let room = output.spare_capacity_mut();
        // SAFETY: the library writes to the room alone, and doesn't read it.
        let step = unsafe { self.step_at(turns, piece, last, room.as_mut_ptr().cast(), room.len()) };
        // SAFETY: so many bytes behind the vector's were written.
        unsafe { output.set_len(output.len() + step.written) };
        step
    }

    /// The same into a room of so many bytes, which has to be there.
    unsafe fn step_at(&mut self, turns: u64, piece: &[u8], last: bool, room: *mut u8, length: usize) -> Step {
        let (engine, mut done) = (&mut self.pair.engine.0, raw::Done::default());
        let (from, size) = (piece.as_ptr(), piece.len());
        // SAFETY: the handle has a run, and `&mut self` keeps other calls away; no borrow overlaps the room.
        let status =
            unsafe { raw::geyserpan_engine_step(engine, turns, from, size, last.into(), room, length, &mut done) };
        let state = match status {
            raw::ENDED => State::Ended(done.exit),
            raw::WANTS => State::Wants,
            raw::FULL => State::Full,
            raw::PAUSED => State::Paused,
            _ => State::Stopped(Error::denied(status, &self.opened.facts, &self.terms)),
        };
        Step { read: done.read as usize, written: done.written as usize, turns: done.turns, state }
    }
}

impl Drop for Session {
    fn drop(&mut self) {
        self.opened.give(mem::replace(&mut self.pair, Pair::none()));
    }
}
