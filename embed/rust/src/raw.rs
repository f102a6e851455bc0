//! What of geyserpan.h is called.
use std::os::raw::c_char;

/// The number of the calls that this crate is made for.
pub const ABI: u32 = 1;

pub const OK: u32 = 0;
pub const NO_IMAGE: u32 = 1;
pub const REFUSED: u32 = 2;
pub const MEMORY: u32 = 3;
pub const WINDOWS: u32 = 4;
pub const SERVICES: u32 = 5;
pub const TURNS: u32 = 6;
pub const ROOM: u32 = 7;
pub const ENDED: u32 = 8;
pub const WANTS: u32 = 9;
pub const FULL: u32 = 10;
pub const PAUSED: u32 = 11;
pub const SOURCE: u32 = 13;
pub const OUTPUT: u32 = 14;
pub const FILE: u32 = 16;
pub const OBJECT: u32 = 17;
pub const OBJECT_ABI: u32 = 18;
pub const OBJECT_IMAGE: u32 = 19;
pub const OBJECT_COUNTS: u32 = 20;

/// `geyserpan_image` and `geyserpan_engine`.
#[repr(C)]
pub struct Handle {
    pub at: *mut u8,
}

#[repr(C)]
#[derive(Clone, Copy, Default)]
pub struct Terms {
    pub turns: u64,
    pub output: u64,
    pub services: u32,
    pub windows: u32,
}

#[repr(C)]
#[derive(Clone, Copy, Default)]
pub struct Facts {
    pub budget: u64,
    pub services: u32,
    pub version: u32,
    pub words: u32,
    pub data_bytes: u32,
    pub stack_pages: u32,
    pub functions: u32,
    pub depth: u32,
    pub zero: u32,
}

#[repr(C)]
#[derive(Clone, Copy, Default)]
pub struct Why {
    pub number: u32,
    pub function: u32,
    pub address: u32,
}

#[repr(C)]
#[derive(Clone, Copy, Default)]
pub struct Done {
    pub turns: u64,
    pub read: u64,
    pub written: u64,
    pub exit: u32,
    pub zero: u32,
}

extern "C" {
    pub fn geyserpan_abi() -> u32;
    pub fn geyserpan_version(room: *mut u8, room_length: usize) -> usize;
    pub fn geyserpan_why_text(status: u32, why: *const Why, room: *mut u8, room_length: usize) -> usize;
    pub fn geyserpan_terms_text(
        status: u32,
        facts: *const Facts,
        terms: *const Terms,
        room: *mut u8,
        room_length: usize,
    ) -> usize;
    pub fn geyserpan_exit_kind(word: u32) -> u32;
    pub fn geyserpan_sha256(bytes: *const u8, length: usize, room: *mut u8, room_length: usize) -> u32;
    pub fn geyserpan_check(image: *const u8, image_length: usize, facts: *mut Facts, why: *mut Why) -> u32;
    pub fn geyserpan_assemble(
        source: *const u8,
        source_length: usize,
        room: *mut u8,
        room_length: usize,
        needed: *mut u64,
        why: *mut Why,
    ) -> u32;
    pub fn geyserpan_image_new(image: *mut Handle) -> u32;
    pub fn geyserpan_image_free(image: Handle);
    pub fn geyserpan_open(
        image: *mut Handle,
        bytes: *const u8,
        length: usize,
        terms: *const Terms,
        why: *mut Why,
    ) -> u32;
    pub fn geyserpan_image_share(image: *mut Handle, other: *mut Handle) -> u32;
    pub fn geyserpan_native(image: *mut Handle, path: *const c_char) -> u32;
    pub fn geyserpan_facts_of(image: *mut Handle, facts: *mut Facts) -> u32;
    pub fn geyserpan_engine_new(engine: *mut Handle) -> u32;
    pub fn geyserpan_engine_free(engine: Handle);
    pub fn geyserpan_engine_begin_with(engine: *mut Handle, image: *mut Handle, terms: *const Terms) -> u32;
    pub fn geyserpan_engine_step(
        engine: *mut Handle,
        turns: u64,
        input: *const u8,
        input_length: usize,
        last: u32,
        room: *mut u8,
        room_length: usize,
        done: *mut Done,
    ) -> u32;
    pub fn geyserpan_engine_end(engine: *mut Handle);
}
