//! The proved functions, as `covremuj.h` declares them.

use std::os::raw::c_void;
use std::ptr;

/// A seat of a heap, or none. Its owner is the value: moving it moves the seat.
#[repr(C)]
pub struct Seat {
    at: *mut c_void,
    is_open: bool,
}

impl Seat {
    pub const fn none() -> Seat {
        Seat { at: ptr::null_mut(), is_open: false }
    }
}

#[repr(C)]
pub struct Sizes {
    pub regions: usize,
    pub region_words: usize,
    pub mutators: usize,
    pub helpers: usize,
    pub reserve: usize,
}

#[repr(C)]
#[derive(Clone, Copy, Default)]
pub struct Value {
    pub number: u64,
    pub thread: u64,
    pub count: u64,
}

#[repr(C)]
#[derive(Clone, Copy, Default)]
pub struct State {
    pub number: u64,
    pub kind: u64,
    pub state: u64,
    pub made: u64,
    pub left: u64,
    pub phase: u64,
    pub place: [u8; 8],
}

/// The kind of the control.
pub const CONTROL: u64 = 3;

/// A seat with steps to make.
pub const WORKS: u64 = 1;

pub const DONE: u32 = 0;
pub const MORE: u32 = 1;
pub const AGAIN: u32 = 2;
pub const ENDED: u32 = 4;
pub const NOT_OPEN: u32 = 32;
pub const PINNED: u32 = 24;
pub const TOO_SMALL: u32 = 25;
pub const NOT_RENEWED: u32 = 26;

extern "C" {
    pub fn cvm_open(config: *const Sizes, seats: *mut Seat, count: usize) -> u32;
    pub fn cvm_begin(seat: *mut Seat, op: u32, a: u32, b: u32, c: u32, d: u32, value: u64) -> u32;
    pub fn cvm_go(seat: *mut Seat, steps: u32, value: *mut Value) -> u32;
    pub fn cvm_end(seat: *mut Seat) -> u32;
    pub fn cvm_work(seat: *mut Seat, steps: u32) -> u32;
    pub fn cvm_look(seat: *mut Seat, state: *mut State) -> u32;
    pub fn cvm_close(seat: *mut Seat) -> u32;
    pub fn cvm_renew(seats: *mut Seat, count: usize) -> u32;
    pub fn cvm_back_off(rounds: *mut u32);
}
