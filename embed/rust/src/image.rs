//! Images that are verified once and shared.
use crate::error::Error;
use crate::raw::{self, Handle};
use crate::session::{Session, State};
use crate::stream::Reader;
use crate::terms::{Facts, Report, Terms};
use std::ffi::CString;
use std::io::{self, Read, Write};
use std::os::unix::ffi::OsStrExt;
use std::path::Path;
use std::sync::{Arc, Mutex, MutexGuard, PoisonError};
use std::{fmt, ptr};

/// How many pairs of handles an image keeps for its next runs.
const MOST: usize = 64;

/// A handle of an image; null where there is none.
pub(crate) struct ImageHandle(pub(crate) Handle);

/// A handle of a run; null where there is none.
pub(crate) struct EngineHandle(pub(crate) Handle);

// SAFETY: the library's handles may go to another thread between calls, which is proved.
unsafe impl Send for ImageHandle {}
// SAFETY: as of `ImageHandle`.
unsafe impl Send for EngineHandle {}

impl Drop for ImageHandle {
    fn drop(&mut self) {
        if !self.0.at.is_null() {
            // SAFETY: it came from `geyserpan_image_new`, and ends here.
            unsafe { raw::geyserpan_image_free(Handle { at: self.0.at }) }
        }
    }
}

impl Drop for EngineHandle {
    fn drop(&mut self) {
        if !self.0.at.is_null() {
            // SAFETY: it came from `geyserpan_engine_new`, and ends here.
            unsafe { raw::geyserpan_engine_free(Handle { at: self.0.at }) }
        }
    }
}

/// What a run has for itself: a handle that shares the image, as it was behind so many changes, and one of the run.
pub(crate) struct Pair {
    pub(crate) image: ImageHandle,
    pub(crate) engine: EngineHandle,
    changes: u64,
}

impl Pair {
    /// No handles.
    pub(crate) fn none() -> Pair {
        let null = || Handle { at: ptr::null_mut() };
        Pair { image: ImageHandle(null()), engine: EngineHandle(null()), changes: 0 }
    }
}

/// What a lock guards. No panic leaves it half changed.
fn locked<T>(mutex: &Mutex<T>) -> MutexGuard<'_, T> {
    mutex.lock().unwrap_or_else(PoisonError::into_inner)
}

/// The handle of an image, how often it was given an object, and handles of runs that have ended.
struct Kept {
    handle: ImageHandle,
    changes: u64,
    idle: Vec<Pair>,
}

/// An image that was verified once, for each `Image` on it.
pub(crate) struct Opened {
    pub(crate) facts: Facts,
    name: [u8; 32],
    kept: Mutex<Kept>,
}

impl Opened {
    /// Handles of its own for a run: those of an earlier run, or new ones.
    fn take(&self) -> Result<Pair, Error> {
        let mut kept = locked(&self.kept);
        if let Some(pair) = kept.idle.pop() {
            return Ok(pair);
        }
        let mut pair = Pair { changes: kept.changes, ..Pair::none() };
        // SAFETY: each handle is used behind its `new` alone; that of the image is in use for this call, by its lock.
        let status = unsafe {
            match raw::geyserpan_image_new(&mut pair.image.0) {
                raw::OK => match raw::geyserpan_image_share(&mut kept.handle.0, &mut pair.image.0) {
                    raw::OK => raw::geyserpan_engine_new(&mut pair.engine.0),
                    status => status,
                },
                status => status,
            }
        };
        if status == raw::OK {
            Ok(pair)
        } else {
            Err(Error::refused(status, raw::Why::default()))
        }
    }

    /// Takes them back, without the run.
    pub(crate) fn give(&self, mut pair: Pair) {
        // SAFETY: the handle came from its `new`.
        unsafe { raw::geyserpan_engine_end(&mut pair.engine.0) };
        let mut kept = locked(&self.kept);
        if kept.idle.len() < MOST && kept.changes == pair.changes {
            kept.idle.push(pair);
        }
    }

    /// Has the runs that are begun from now on go by an object.
    fn go_by(&self, path: &Path) -> Result<(), Error> {
        let path = CString::new(path.as_os_str().as_bytes()).map_err(|_| Error::NoFile)?;
        let mut kept = locked(&self.kept);
        // SAFETY: the handle came from its `new`, and is in use for this call, by its lock; the path ends with a zero
        // byte.
        match unsafe { raw::geyserpan_native(&mut kept.handle.0, path.as_ptr()) } {
            raw::OK => {
                kept.changes += 1;
                kept.idle.clear();
                Ok(())
            }
            status => Err(Error::refused(status, raw::Why::default())),
        }
    }

    /// Begins a run on these terms.
    fn begin(&self, terms: &Terms) -> Result<Pair, Error> {
        let mut pair = self.take()?;
        // SAFETY: both handles came from their `new`, and are this frame's.
        match unsafe { raw::geyserpan_engine_begin_with(&mut pair.engine.0, &mut pair.image.0, &(*terms).into()) } {
            raw::OK => Ok(pair),
            status => {
                self.give(pair);
                Err(Error::denied(status, &self.facts, terms))
            }
        }
    }
}

/// An image that was verified, and the terms of its runs. Any thread may use it at any time; a clone is the same image.
#[derive(Clone)]
pub struct Image {
    opened: Arc<Opened>,
    terms: Terms,
}

impl fmt::Debug for Image {
    fn fmt(&self, f: &mut fmt::Formatter<'_>) -> fmt::Result {
        f.debug_struct("Image").field("facts", &self.opened.facts).field("terms", &self.terms).finish_non_exhaustive()
    }
}

impl Image {
    /// Verifies an image and compares it with the terms. The bytes aren't needed after it.
    ///
    /// # Errors
    /// [`Error::NoImage`], [`Error::Refused`]; [`Error::Windows`], [`Error::Services`], [`Error::Turns`]; memory was
    /// refused.
    pub fn open(bytes: &[u8], terms: &Terms) -> Result<Image, Error> {
        // SAFETY: it takes nothing.
        match unsafe { raw::geyserpan_abi() } {
            raw::ABI => {}
            found => return Err(Error::Abi { found }),
        }
        let (mut handle, mut why) = (Pair::none().image, raw::Why::default());
        let (mut facts, granted) = (raw::Facts::default(), raw::Terms::from(*terms));
        // SAFETY: slices have no null pointers; what is written is this frame's; the handle is used behind its `new`.
        let status = unsafe {
            match raw::geyserpan_image_new(&mut handle.0) {
                raw::OK => match raw::geyserpan_open(&mut handle.0, bytes.as_ptr(), bytes.len(), &granted, &mut why) {
                    raw::OK => raw::geyserpan_facts_of(&mut handle.0, &mut facts),
                    status => status,
                },
                status => status,
            }
        };
        match status {
            raw::OK => {}
            raw::SERVICES | raw::TURNS => return Err(Error::denied(status, &crate::check(bytes)?, terms)),
            raw::WINDOWS => return Err(Error::denied(status, &facts.into(), terms)),
            _ => return Err(Error::refused(status, why)),
        }
        let kept = Mutex::new(Kept { handle, changes: 0, idle: Vec::new() });
        let opened = Opened { facts: facts.into(), name: crate::sha256(bytes), kept };
        Ok(Image { opened: Arc::new(opened), terms: *terms })
    }

    /// The same image on other terms, as a tenant's own. It isn't verified again.
    ///
    /// # Errors
    /// [`Error::Windows`], [`Error::Services`], [`Error::Turns`], or memory was refused.
    pub fn with(&self, terms: &Terms) -> Result<Image, Error> {
        self.opened.give(self.opened.begin(terms)?);
        Ok(Image { opened: Arc::clone(&self.opened), terms: *terms })
    }

    /// Has the runs that are begun from now on, of this image and its clones, go by the shared object that
    /// `native build` made of it. Their outputs and counts are the same; a step may make more turns than it is allowed.
    ///
    /// # Safety
    /// The object is run in this process, with all of its rights: it has to be what `native build` made, and its file
    /// isn't written to while it is loaded.
    ///
    /// # Errors
    /// [`Error::NoFile`], [`Error::NoObject`], [`Error::ObjectAbi`], [`Error::ObjectImage`], [`Error::ObjectCounts`],
    /// or memory was refused: its runs then go by what they went by.
    pub unsafe fn native(&self, path: impl AsRef<Path>) -> Result<(), Error> {
        self.opened.go_by(path.as_ref())
    }

    /// What it declares and is made of.
    #[must_use]
    pub fn facts(&self) -> Facts {
        self.opened.facts
    }

    /// The terms of its runs.
    #[must_use]
    pub fn terms(&self) -> Terms {
        self.terms
    }

    /// Its name, the SHA-256 of its bytes.
    #[must_use]
    pub fn sha256(&self) -> [u8; 32] {
        self.opened.name
    }

    /// The output of a run to its end on an input. `run_into` tells its exit word, too.
    ///
    /// # Errors
    /// [`Error::Output`], or memory was refused.
    pub fn run(&self, input: &[u8]) -> Result<Vec<u8>, Error> {
        let mut output = Vec::new();
        self.run_into(input, &mut output)?;
        Ok(output)
    }

    /// Runs it to its end on an input, and puts the output behind what the vector has. With an error that is what was
    /// put out until then.
    ///
    /// # Errors
    /// [`Error::Output`], or memory was refused.
    pub fn run_into(&self, mut input: &[u8], output: &mut Vec<u8>) -> Result<Report, Error> {
        let mut session = self.session()?;
        loop {
            output.try_reserve(256).map_err(|_| Error::Memory)?;
            let step = session.step_behind(u64::MAX, input, true, output);
            input = &input[step.read..];
            match step.state {
                State::Ended(exit) => return Ok(Report { exit, turns: step.turns }),
                State::Stopped(error) => return Err(error),
                State::Wants | State::Full | State::Paused => {}
            }
        }
    }

    /// Whether the exit word of a run on an input is 0.
    ///
    /// # Errors
    /// [`Error::Output`], or memory was refused.
    pub fn matches(&self, input: &[u8]) -> Result<bool, Error> {
        Ok(self.run_into(input, &mut Vec::new())?.exit == 0)
    }

    /// Begins a run in pieces.
    ///
    /// # Errors
    /// Memory was refused.
    pub fn session(&self) -> Result<Session, Error> {
        Ok(Session::new(Arc::clone(&self.opened), self.opened.begin(&self.terms)?, self.terms))
    }

    /// Begins a run over a source, whose output is read.
    ///
    /// # Errors
    /// Memory was refused.
    pub fn reader<R: Read>(&self, source: R) -> Result<Reader<R>, Error> {
        Ok(Reader::new(self.session()?, source))
    }

    /// Runs it over streams, in memory that doesn't grow: reads as it asks, and has written and flushed what it puts
    /// out before it reads on.
    ///
    /// # Errors
    /// Those of source and sink, and an [`Error`] within an [`io::Error`].
    pub fn filter(&self, source: impl Read, mut sink: impl Write) -> io::Result<Report> {
        let (mut reader, mut room) = (self.reader(source)?, [0; 8192]);
        loop {
            if let Some(report) = reader.report() {
                return Ok(report);
            }
            match reader.read(&mut room) {
                Ok(count) => {
                    sink.write_all(&room[..count])?;
                    sink.flush()?;
                }
                Err(error) if error.kind() == io::ErrorKind::Interrupted => {}
                Err(error) => return Err(error),
            }
        }
    }
}
