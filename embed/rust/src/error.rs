//! Why something was denied.
use crate::raw;
use crate::terms::{Facts, Services, Terms};
use std::{fmt, io};

/// Why an image isn't run, or a run was stopped.
#[derive(Clone, Copy, Debug, PartialEq, Eq, Hash)]
#[non_exhaustive]
pub enum Error {
    /// The bytes are no image.
    #[non_exhaustive]
    NoImage {
        /// 1 to 8, of I1 to I8.
        number: u32,
    },
    /// The image breaks a rule.
    #[non_exhaustive]
    Refused {
        /// The number of the rule, 1 to 20.
        rule: u32,
        /// The function in which it is broken.
        function: u32,
        /// The address at which it is broken.
        address: u32,
    },
    /// Memory was refused. A session goes on behind it.
    Memory,
    /// There is no run on so many windows.
    #[non_exhaustive]
    Windows {
        /// What the terms say.
        windows: u32,
    },
    /// The image asks for a service that isn't granted.
    #[non_exhaustive]
    Services {
        /// What it asks for.
        asked: Services,
        /// What is granted.
        granted: Services,
    },
    /// The image asks for more turns than are granted.
    #[non_exhaustive]
    Turns {
        /// What it asks for.
        asked: u64,
        /// What is granted.
        granted: u64,
    },
    /// The run puts out more than is granted.
    #[non_exhaustive]
    Output {
        /// What is granted, in bytes.
        granted: u64,
    },
    /// The source has a fault.
    #[non_exhaustive]
    Source {
        /// 1 to 4 of X1 to X4, 5 to 9 of S1 to S5, 10 to 13 of A1 to A4.
        cause: u32,
        /// The line.
        line: u32,
    },
    /// There is no file of an object, or it can't be read.
    NoFile,
    /// The file is no object of native code.
    NoObject,
    /// The object is of another version.
    ObjectAbi,
    /// The object was made of another image.
    ObjectImage,
    /// The object doesn't count turns.
    ObjectCounts,
    /// The library has calls of another number.
    #[non_exhaustive]
    Abi {
        /// That number.
        found: u32,
    },
    /// A status that this crate doesn't know.
    #[non_exhaustive]
    Unknown {
        /// Its number.
        status: u32,
    },
}

impl Error {
    /// A status with the numbers that tell why.
    pub(crate) fn refused(status: u32, why: raw::Why) -> Error {
        match status {
            raw::NO_IMAGE => Error::NoImage { number: why.number },
            raw::REFUSED => Error::Refused { rule: why.number, function: why.function, address: why.address },
            raw::MEMORY => Error::Memory,
            raw::SOURCE => Error::Source { cause: why.number, line: why.address },
            raw::FILE => Error::NoFile,
            raw::OBJECT => Error::NoObject,
            raw::OBJECT_ABI => Error::ObjectAbi,
            raw::OBJECT_IMAGE => Error::ObjectImage,
            raw::OBJECT_COUNTS => Error::ObjectCounts,
            _ => Error::Unknown { status },
        }
    }

    /// A status of terms, with both numbers.
    pub(crate) fn denied(status: u32, facts: &Facts, terms: &Terms) -> Error {
        let granted = raw::Terms::from(*terms);
        match status {
            raw::WINDOWS => Error::Windows { windows: granted.windows },
            raw::SERVICES => Error::Services { asked: facts.services, granted: terms.granted() },
            raw::TURNS => Error::Turns { asked: facts.budget, granted: granted.turns },
            raw::OUTPUT => Error::Output { granted: granted.output },
            _ => Error::refused(status, raw::Why::default()),
        }
    }

    /// What the library tells it by: the status, and the numbers of it.
    fn numbers(self) -> (u32, raw::Why, raw::Facts, raw::Terms) {
        let (mut why, mut facts, mut terms) = (raw::Why::default(), raw::Facts::default(), raw::Terms::default());
        let status = match self {
            Error::NoImage { number } => {
                why.number = number;
                raw::NO_IMAGE
            }
            Error::Refused { rule, function, address } => {
                why = raw::Why { number: rule, function, address };
                raw::REFUSED
            }
            Error::Source { cause, line } => {
                why = raw::Why { number: cause, function: 0, address: line };
                raw::SOURCE
            }
            Error::Windows { windows } => {
                terms.windows = windows;
                raw::WINDOWS
            }
            Error::Services { asked, granted } => {
                (facts.services, terms.services) = (asked.bits(), granted.bits());
                raw::SERVICES
            }
            Error::Turns { asked, granted } => {
                (facts.budget, terms.turns) = (asked, granted);
                raw::TURNS
            }
            Error::Output { granted } => {
                terms.output = granted;
                raw::OUTPUT
            }
            Error::Memory => raw::MEMORY,
            Error::NoFile => raw::FILE,
            Error::NoObject => raw::OBJECT,
            Error::ObjectAbi => raw::OBJECT_ABI,
            Error::ObjectImage => raw::OBJECT_IMAGE,
            Error::ObjectCounts => raw::OBJECT_COUNTS,
            Error::Abi { .. } => raw::OK,
            Error::Unknown { status } => status,
        };
        (status, why, facts, terms)
    }
}

impl fmt::Display for Error {
    fn fmt(&self, f: &mut fmt::Formatter<'_>) -> fmt::Result {
        match self {
            Error::Abi { found } => return write!(f, "the library's calls have the number {found}, not {}", raw::ABI),
            Error::Memory => return f.write_str("memory was refused"),
            _ => {}
        }
        let (status, why, facts, terms) = self.numbers();
        let mut room = [0; 96];
        // SAFETY: all are this frame's.
        let length = unsafe {
            match self {
                Error::NoImage { .. } | Error::Refused { .. } | Error::Source { .. } => {
                    raw::geyserpan_why_text(status, &why, room.as_mut_ptr(), room.len())
                }
                _ => raw::geyserpan_terms_text(status, &facts, &terms, room.as_mut_ptr(), room.len()),
            }
        };
        f.write_str(&String::from_utf8_lossy(&room[..length]))
    }
}

impl std::error::Error for Error {}

impl From<Error> for io::Error {
    fn from(error: Error) -> io::Error {
        let kind = match error {
            Error::NoImage { .. } | Error::Refused { .. } | Error::Source { .. } => io::ErrorKind::InvalidData,
            Error::Windows { .. } | Error::Services { .. } | Error::Turns { .. } => io::ErrorKind::PermissionDenied,
            Error::Memory => io::ErrorKind::OutOfMemory,
            Error::NoFile => io::ErrorKind::NotFound,
            Error::NoObject | Error::ObjectAbi | Error::ObjectImage | Error::ObjectCounts => io::ErrorKind::InvalidData,
            _ => io::ErrorKind::Other,
        };
        io::Error::new(kind, error)
    }
}
