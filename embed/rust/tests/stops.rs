//! A host that is stopped in mid-run: by errors and panics of its streams at each call, and by each growth of memory
//! that is refused. Nothing of the run is left, and the image is as it was. The allocator is this test's own.
use geyserpan::{Error, Image, State};
use std::cell::Cell;
use std::ffi::c_void;
use std::io::{self, Read, Write};
use std::panic::{catch_unwind, AssertUnwindSafe};

mod common;
use common::{file, most};

#[repr(C)]
pub struct Block {
    ok: u8,
    at: *mut c_void,
}

extern "C" {
    fn realloc(at: *mut c_void, bytes: usize) -> *mut c_void;
    fn free(at: *mut c_void);
}

thread_local! {
    // of this thread, so that tests may run side by side
    static BLOCKS: Cell<i64> = const { Cell::new(0) };
    static ASKED: Cell<u64> = const { Cell::new(0) };
    static REFUSED: Cell<u64> = const { Cell::new(u64::MAX) };
}

fn grown(old: *mut c_void, bytes: usize) -> Block {
    let asked = ASKED.with(|it| it.replace(it.get() + 1));
    // SAFETY: the library gives a block of this allocator, or null.
    let at =
        if asked == REFUSED.with(Cell::get) { std::ptr::null_mut() } else { unsafe { realloc(old, bytes.max(1)) } };
    if !at.is_null() && old.is_null() {
        BLOCKS.with(|it| it.set(it.get() + 1));
    }
    let ok = u8::from(!at.is_null());
    Block { ok, at: if ok == 0 { std::ptr::NonNull::dangling().as_ptr() } else { at } }
}

#[no_mangle]
pub extern "C" fn rattle_alloc(bytes: usize, _align: usize) -> Block {
    grown(std::ptr::null_mut(), bytes)
}

#[no_mangle]
pub extern "C" fn rattle_realloc(at: *mut c_void, _kept: usize, bytes: usize, _align: usize) -> Block {
    grown(at, bytes)
}

/// # Safety
/// The block is one of this allocator.
#[no_mangle]
pub unsafe extern "C" fn rattle_dealloc(at: *mut c_void) {
    BLOCKS.with(|it| it.set(it.get() - 1));
    // SAFETY: as above.
    unsafe { free(at) }
}

fn blocks() -> i64 {
    BLOCKS.with(Cell::get)
}

/// Refuses the growth behind so many, and counts anew.
fn refuse(after: u64) {
    REFUSED.with(|it| it.set(after));
    ASKED.with(|it| it.set(0));
}

/// A stream that fails at the call behind so many: by an error, or by a panic.
struct Planned<S> {
    stream: S,
    left: u32,
    panics: bool,
}

impl<S> Planned<S> {
    fn next(&mut self) -> io::Result<()> {
        match self.left.checked_sub(1) {
            Some(left) => self.left = left,
            None if self.panics => panic!("planned"),
            None => return Err(io::Error::new(io::ErrorKind::Other, "planned")),
        }
        Ok(())
    }
}

impl<S: Read> Read for Planned<S> {
    fn read(&mut self, room: &mut [u8]) -> io::Result<usize> {
        self.next()?;
        self.stream.read(&mut room[..7])
    }
}

impl<S: Write> Write for Planned<S> {
    fn write(&mut self, bytes: &[u8]) -> io::Result<usize> {
        self.next()?;
        self.stream.write(bytes)
    }

    fn flush(&mut self) -> io::Result<()> {
        self.next()
    }
}

/// Whether a run of the image between such streams came to its end; it did, or failed as planned.
fn came_to_its_end(image: &Image, at: u32, panics: bool, of_source: bool) -> bool {
    let text = b"abcdefgh".repeat(50);
    let mut output = Vec::new();
    let never = u32::MAX;
    let (source, sink) = if of_source { (at, never) } else { (never, at) };
    let ran = catch_unwind(AssertUnwindSafe(|| {
        let source = Planned { stream: &text[..], left: source, panics };
        image.filter(source, Planned { stream: &mut output, left: sink, panics })
    }));
    match &ran {
        Ok(Ok(report)) => assert!(report.exit == 0 && output == text),
        Ok(Err(error)) => assert!(!panics && error.to_string() == "planned", "{error}"),
        Err(value) => assert!(panics && value.downcast_ref::<&str>() == Some(&"planned")),
    }
    matches!(ran, Ok(Ok(_)))
}

#[test]
fn stopped_at_every_read_and_write() {
    let Some(bytes) = file("echo/echo.img") else { return };
    let before = blocks();
    let image = Image::open(&bytes, &most()).unwrap();
    image.run(b"abc").unwrap();
    let held = blocks();
    std::panic::set_hook(Box::new(|_| {}));
    for (panics, of_source) in [(false, true), (true, true), (false, false), (true, false)] {
        let mut at = 0;
        while !came_to_its_end(&image, at, panics, of_source) {
            assert_eq!(blocks(), held);
            assert_eq!(image.run(b"abc").unwrap(), b"abc");
            at += 1;
        }
        assert!(at > 50, "{at} points");
    }
    drop(std::panic::take_hook());
    drop(image);
    assert_eq!(blocks(), before);
}

#[test]
fn stopped_between_steps() {
    let Some(bytes) = file("echo/echo.img") else { return };
    let before = blocks();
    for steps in 0..100 {
        let image = Image::open(&bytes, &most()).unwrap();
        let mut session = image.session().unwrap();
        for _ in 0..steps {
            let _ = session.step(1, b"a", false, &mut [0; 1]);
        }
        drop(image); // the run goes on without it
        let step = session.step(u64::MAX, b"", true, &mut [0; 200]);
        assert!(matches!(step.state, State::Ended(0)));
    }
    assert_eq!(blocks(), before);
}

#[test]
fn refused_growths() {
    let Some(bytes) = file("echo/echo.img") else { return };
    let text = [b'a'; 900];
    for at in 0.. {
        let before = blocks();
        refuse(at);
        let ran = Image::open(&bytes, &most()).and_then(|image| {
            let output = image.run(&text);
            refuse(u64::MAX);
            assert_eq!(image.run(&text).unwrap(), text);
            output
        });
        refuse(u64::MAX);
        assert_eq!(blocks(), before);
        match ran {
            Ok(output) => {
                assert!(output == text && at > 2);
                return println!("refused in turn: {at} growths");
            }
            Err(error) => assert_eq!(error, Error::Memory),
        }
    }
}

#[test]
fn steps_go_on_behind_refused_growths() {
    let Some(bytes) = file("deep/deep.img") else { return };
    let image = Image::open(&bytes, &most()).unwrap();
    let wanted = image.run(b"").unwrap();
    for at in 0.. {
        let (mut session, mut output, mut refused) = (image.session().unwrap(), Vec::new(), false);
        refuse(at);
        loop {
            let mut room = [0; 7];
            let step = session.step(100_000, b"", true, &mut room);
            output.extend_from_slice(&room[..step.written]);
            match step.state {
                State::Ended(_) => break,
                State::Stopped(error) => {
                    assert_eq!(error, Error::Memory);
                    refused = true;
                }
                _ => {}
            }
        }
        refuse(u64::MAX);
        assert_eq!(output, wanted);
        if !refused {
            return println!("refused in turn: {at} growths of steps");
        }
    }
}
