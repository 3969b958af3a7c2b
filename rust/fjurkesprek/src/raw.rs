//! The library's own calls and answers: numbers only, as it exports them.

use crate::{State, Table, PLACES, ROWS};
use core::mem::{offset_of, size_of};

/// What a slot was used for, in [`SlotAnswer::used`].
pub const EMPTY: u8 = 0;
pub const HARD: u8 = 1;
pub const GIVEN: u8 = 2;
pub const LOST: u8 = 3;

#[repr(C)]
#[derive(Clone, Copy, PartialEq, Eq, Debug)]
pub struct Ask {
    pub name: u16,
    pub size: u16,
}

#[repr(C)]
#[derive(Clone, Copy, PartialEq, Eq, Debug)]
pub struct SlotAnswer {
    pub number: u8,
    pub used: u8,
    pub word: u16,
    pub late_rows: u32,
    /// The row if hard, the name if given.
    pub who: usize,
}

#[repr(C)]
#[derive(Clone, Copy, PartialEq, Eq, Debug)]
pub struct RequestAnswer {
    pub number: u8,
    pub row: usize,
}

#[repr(C)]
#[derive(Clone, PartialEq, Eq, Debug)]
pub struct ReadAnswer {
    pub number: u8,
    pub row: usize,
    pub table: Table,
}

#[repr(C)]
#[derive(Clone, Copy, PartialEq, Eq, Debug)]
pub struct WriteAnswer {
    pub number: u8,
    pub row: usize,
    pub length: usize,
}

#[repr(C)]
#[derive(Clone, Copy, PartialEq, Eq, Debug)]
pub struct TestAnswer {
    pub number: u8,
    pub k: u16,
    pub row: usize,
    pub each: [u16; ROWS],
}

#[repr(C)]
#[derive(Clone, PartialEq, Eq, Debug)]
pub struct StartAnswer {
    pub number: u8,
    pub row: usize,
    pub state: State,
}

#[repr(C)]
#[derive(Clone, Copy, PartialEq, Eq, Debug)]
pub struct SumAnswer {
    pub number: u8,
    pub total: u64,
}

extern "C" {
    pub fn fjurke_read(bytes: *const u8, length: usize) -> ReadAnswer;
    pub fn fjurke_write(table: Table, buffer: *mut u8, length: usize) -> WriteAnswer;
    pub fn fjurke_test(table: Table) -> TestAnswer;
    pub fn fjurke_start(table: Table) -> StartAnswer;
    pub fn fjurke_slot(state: *mut State, lost: u8) -> SlotAnswer;
    pub fn fjurke_request(state: *mut State, ask: Ask) -> RequestAnswer;
    pub fn fjurke_late_total(state: State) -> SumAnswer;
}

// The layout of the library.
const _: () = {
    assert!(size_of::<usize>() == 8);
    assert!(size_of::<Table>() == 104 && offset_of!(Table, d) == 72);
    assert!(size_of::<State>() == 504 && offset_of!(State, lost) == 496);
    assert!(offset_of!(State, late) == 208 && offset_of!(State, sizes) + 2 * PLACES == 472);
    assert!(size_of::<Ask>() == 4);
    assert!(size_of::<SlotAnswer>() == 16 && offset_of!(SlotAnswer, who) == 8);
    assert!(size_of::<RequestAnswer>() == 16 && offset_of!(RequestAnswer, row) == 8);
    assert!(size_of::<ReadAnswer>() == 120 && offset_of!(ReadAnswer, table) == 16);
    assert!(size_of::<WriteAnswer>() == 24 && offset_of!(WriteAnswer, length) == 16);
    assert!(size_of::<TestAnswer>() == 48 && offset_of!(TestAnswer, each) == 16);
    assert!(size_of::<StartAnswer>() == 520 && offset_of!(StartAnswer, state) == 16);
    assert!(size_of::<SumAnswer>() == 16 && offset_of!(SumAnswer, total) == 8);
};
