//! Runs machine code that you don't trust inside your own process: safe Rust over `libgeyserpan`, without dependencies.
//!
//! An image is verified before its first instruction runs: it ends within the turns that it declares, and reaches
//! nothing but its own memory, its input and its output.
//!
//! ```
//! use geyserpan::{Image, Terms};
//!
//! # fn main() -> Result<(), geyserpan::Error> {
//! # let bytes = geyserpan::assemble(
//! #     b".services exit,get,put\n.function main,leaf,0,0,37\n.fuel 37\n ta 1\n inc %o0\n ta 2\n \
//! #     ta 1\n inc %o0\n ta 2\n ta 1\n inc %o0\n ta 2\n mov 0,%o0\n ta 0\n",
//! # )?;
//! let image = Image::open(&bytes, &Terms::new().turns(100_000))?; // verified here, once
//! assert_eq!(image.run(b"HAL")?, b"IBM");
//! # Ok(()) }
//! ```
//!
//! Any thread may use an [`Image`] at any time, and a clone is the same image. A [`Session`] is a run in pieces, which
//! never waits; a [`Reader`] and [`Image::filter`] are runs over streams. A run is a function of image, input and
//! terms, turns included: run it again, or twice, anywhere. It is made on the library's engine, or by an object of
//! native code where the image was given one.
#![warn(missing_docs)]

mod error;
mod image;
mod raw;
mod session;
mod stream;
mod terms;

pub use error::Error;
pub use image::Image;
pub use session::{Session, State, Step};
pub use stream::Reader;
pub use terms::{Facts, Report, Services, Terms, Test};

/// The version of the library's sources.
#[must_use]
pub fn version() -> String {
    let mut room = [0; 32];
    // SAFETY: the room is this frame's.
    let length = unsafe { raw::geyserpan_version(room.as_mut_ptr(), room.len()) };
    String::from_utf8_lossy(&room[..length]).into_owned()
}

/// The name of an image: the SHA-256 of its bytes.
#[must_use]
pub fn sha256(bytes: &[u8]) -> [u8; 32] {
    let mut name = [0; 32];
    // SAFETY: slices have no null pointers, and the room is this frame's, of the 32 bytes that are written.
    unsafe { raw::geyserpan_sha256(bytes.as_ptr(), bytes.len(), name.as_mut_ptr(), name.len()) };
    name
}

/// The verdict on the bytes of an image, whatever it asks for.
///
/// # Errors
/// [`Error::NoImage`], [`Error::Refused`], or memory was refused.
pub fn check(bytes: &[u8]) -> Result<Facts, Error> {
    let (mut facts, mut why) = (raw::Facts::default(), raw::Why::default());
    // SAFETY: slices have no null pointers, and the rest are this frame's.
    match unsafe { raw::geyserpan_check(bytes.as_ptr(), bytes.len(), &mut facts, &mut why) } {
        raw::OK => Ok(facts.into()),
        status => Err(Error::refused(status, why)),
    }
}

/// The bytes of the image that a source of the sandbox's language means.
///
/// # Errors
/// [`Error::Source`], or memory was refused.
pub fn assemble(source: &[u8]) -> Result<Vec<u8>, Error> {
    let (mut room, mut needed, mut why) = (vec![0; 4096], 0, raw::Why::default());
    loop {
        // SAFETY: slices have no null pointers, and the rest are this frame's.
        let status = unsafe {
            raw::geyserpan_assemble(source.as_ptr(), source.len(), room.as_mut_ptr(), room.len(), &mut needed, &mut why)
        };
        match status {
            raw::OK => {
                room.truncate(needed as usize);
                return Ok(room);
            }
            raw::ROOM => room.resize(needed as usize, 0),
            _ => return Err(Error::refused(status, why)),
        }
    }
}
