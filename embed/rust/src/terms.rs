//! What is granted, what an image declares, and what a run gave.
use crate::raw;
use std::fmt;
use std::ops::{BitAnd, BitOr};

/// What a program may ask its host for, a sum of services.
#[derive(Clone, Copy, Debug, PartialEq, Eq, Hash)]
pub struct Services(u32);

impl Services {
    /// None.
    pub const NONE: Services = Services(0);
    /// To end.
    pub const EXIT: Services = Services(1);
    /// To read a byte of the input.
    pub const GET: Services = Services(2);
    /// To write a byte of the output.
    pub const PUT: Services = Services(4);
    /// All three.
    pub const ALL: Services = Services(7);

    /// The number of the sum.
    #[must_use]
    pub const fn bits(self) -> u32 {
        self.0
    }

    /// Whether each of these is one of them.
    #[must_use]
    pub const fn contains(self, others: Services) -> bool {
        self.0 & others.0 == others.0
    }
}

impl BitOr for Services {
    type Output = Services;
    fn bitor(self, other: Services) -> Services {
        Services(self.0 | other.0)
    }
}

impl BitAnd for Services {
    type Output = Services;
    fn bitand(self, other: Services) -> Services {
        Services(self.0 & other.0)
    }
}

/// What a host grants: turns, bytes of output and services, and on how many register windows turns are counted, 4 to
/// 32. Where nothing else is said it is a million turns, some milliseconds, 65,536 bytes, all services, and 8 windows.
#[derive(Clone, Copy, Debug, PartialEq, Eq, Hash)]
pub struct Terms {
    turns: u64,
    output: u64,
    services: Services,
    windows: u32,
}

impl Default for Terms {
    fn default() -> Terms {
        Terms { turns: 1_000_000, output: 65_536, services: Services::ALL, windows: 8 }
    }
}

impl Terms {
    /// The terms where nothing else is said.
    #[must_use]
    pub fn new() -> Terms {
        Terms::default()
    }

    /// The same with so many turns.
    #[must_use]
    pub fn turns(self, turns: u64) -> Terms {
        Terms { turns, ..self }
    }

    /// The same with so many bytes of output.
    #[must_use]
    pub fn output(self, output: u64) -> Terms {
        Terms { output, ..self }
    }

    /// The same with these services.
    #[must_use]
    pub fn services(self, services: Services) -> Terms {
        Terms { services, ..self }
    }

    /// The same with so many windows.
    #[must_use]
    pub fn windows(self, windows: u32) -> Terms {
        Terms { windows, ..self }
    }

    /// The services that are granted.
    pub(crate) fn granted(&self) -> Services {
        self.services
    }
}

impl From<Terms> for raw::Terms {
    fn from(terms: Terms) -> raw::Terms {
        let Terms { turns, output, services, windows } = terms;
        raw::Terms { turns, output, services: services.0, windows }
    }
}

/// What an image declares and is made of.
#[derive(Clone, Copy, Debug, PartialEq, Eq, Hash)]
#[non_exhaustive]
pub struct Facts {
    /// The turns within which each run ends.
    pub budget: u64,
    /// The services that it asks for.
    pub services: Services,
    /// The version of its format.
    pub version: u32,
    /// The words of its code.
    pub words: u32,
    /// The bytes of its data.
    pub data_bytes: u32,
    /// The pages of its stack.
    pub stack_pages: u32,
    /// How many functions it has.
    pub functions: u32,
    /// The call depth that the first of them declares; 0 before version 3.
    pub depth: u32,
}

impl From<raw::Facts> for Facts {
    fn from(told: raw::Facts) -> Facts {
        let raw::Facts { budget, services, version, words, data_bytes, stack_pages, functions, depth, .. } = told;
        Facts { budget, services: Services(services), version, words, data_bytes, stack_pages, functions, depth }
    }
}

/// By which test of the front end's a run of a program from C ended.
#[derive(Clone, Copy, Debug, PartialEq, Eq, Hash)]
#[non_exhaustive]
pub enum Test {
    /// An index leaves its object.
    Index,
    /// A pointer leaves the data, isn't aligned, or leads to a constant.
    Pointer,
    /// A divisor is 0.
    Divisor,
    /// The loops have used up their turns.
    Loops,
    /// Calls go too deep.
    Depth,
    /// A call through a pointer that is no function's.
    Call,
}

impl fmt::Display for Test {
    fn fmt(&self, f: &mut fmt::Formatter<'_>) -> fmt::Result {
        f.write_str(match self {
            Test::Index => "an index leaves its object",
            Test::Pointer => "a pointer leaves the data, isn't aligned, or leads to a constant",
            Test::Divisor => "a divisor is 0",
            Test::Loops => "the loops have used up their turns",
            Test::Depth => "calls go too deep",
            Test::Call => "a call through a pointer that is no function's",
        })
    }
}

/// How a run ended: its exit word, and its turns.
#[derive(Clone, Copy, Debug, PartialEq, Eq, Hash)]
#[non_exhaustive]
pub struct Report {
    /// The exit word.
    pub exit: u32,
    /// The turns that it made.
    pub turns: u64,
}

impl Report {
    /// By which test it ended, and at which line of the source; none where it ended by none. Any program may end with
    /// such a word of its own.
    #[must_use]
    pub fn test(&self) -> Option<(Test, u32)> {
        // SAFETY: it takes a number alone.
        let test = match unsafe { raw::geyserpan_exit_kind(self.exit) } {
            1 => Test::Index,
            2 => Test::Pointer,
            3 => Test::Divisor,
            4 => Test::Loops,
            5 => Test::Depth,
            9 => Test::Call,
            _ => return None,
        };
        Some((test, self.exit & 0xFFFF))
    }
}
