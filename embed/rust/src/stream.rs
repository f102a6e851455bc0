//! Runs over streams.
use crate::session::{Session, State};
use crate::terms::Report;
use std::fmt;
use std::io::{self, Read};

/// What an image puts out on what it reads from a source, which it reads as the program asks for more.
///
/// ```
/// use geyserpan::{Image, Terms};
///
/// # fn main() -> Result<(), Box<dyn std::error::Error>> {
/// # let bytes = geyserpan::assemble(
/// #     b".services exit,get,put\n.function main,leaf,0,0,37\n.fuel 37\n ta 1\n inc %o0\n ta 2\n \
/// #     ta 1\n inc %o0\n ta 2\n ta 1\n inc %o0\n ta 2\n mov 0,%o0\n ta 0\n",
/// # )?;
/// let image = Image::open(&bytes, &Terms::new())?;
/// let text = std::io::read_to_string(image.reader(&b"HAL"[..])?)?;
/// assert_eq!(text, "IBM");
/// # Ok(()) }
/// ```
pub struct Reader<R> {
    source: R,
    session: Session,
    room: Box<[u8]>,
    from: usize,
    to: usize,
    last: bool,
    report: Option<Report>,
}

impl<R> fmt::Debug for Reader<R> {
    fn fmt(&self, f: &mut fmt::Formatter<'_>) -> fmt::Result {
        f.debug_struct("Reader").field("session", &self.session).field("report", &self.report).finish_non_exhaustive()
    }
}

impl<R> Reader<R> {
    pub(crate) fn new(session: Session, source: R) -> Reader<R> {
        let room = vec![0; 32 << 10].into_boxed_slice();
        Reader { source, session, room, from: 0, to: 0, last: false, report: None }
    }

    /// How the run ended; none while it goes on.
    #[must_use]
    pub fn report(&self) -> Option<Report> {
        self.report
    }
}

impl<R: Read> Reader<R> {
    /// Takes the next piece of the source.
    fn fill(&mut self) -> io::Result<()> {
        let count = self.source.read(&mut self.room)?;
        (self.from, self.to, self.last) = (0, count, count == 0);
        Ok(())
    }
}

impl<R: Read> Read for Reader<R> {
    fn read(&mut self, room: &mut [u8]) -> io::Result<usize> {
        while self.report.is_none() && !room.is_empty() {
            let step = self.session.step(u64::MAX, &self.room[self.from..self.to], self.last, room);
            self.from += step.read;
            match step.state {
                State::Ended(exit) => self.report = Some(Report { exit, turns: step.turns }),
                // a step answers the same again where it was stopped
                State::Stopped(error) if step.written == 0 => return Err(error.into()),
                State::Wants if step.written == 0 => self.fill()?,
                _ => {}
            }
            if step.written > 0 {
                return Ok(step.written);
            }
        }
        Ok(0)
    }
}
