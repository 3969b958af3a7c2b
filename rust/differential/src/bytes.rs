//! States and tables as plain bytes, and bytes as text.

use fjurkesprek::{State, Table};
use std::mem::{size_of, transmute};

pub const STATE_BYTES: usize = size_of::<State>();
pub const TABLE_BYTES: usize = size_of::<Table>();

// SAFETY of all four: the structs are whole numbers without a gap between
// them, so every value is bytes and any bytes are a value.

pub fn state_bytes(state: &State) -> [u8; STATE_BYTES] {
    unsafe { transmute(state.clone()) }
}

pub fn state_of(bytes: [u8; STATE_BYTES]) -> State {
    unsafe { transmute(bytes) }
}

pub fn table_bytes(table: &Table) -> [u8; TABLE_BYTES] {
    unsafe { transmute(table.clone()) }
}

pub fn table_of(bytes: [u8; TABLE_BYTES]) -> Table {
    unsafe { transmute(bytes) }
}

/// Two digits a byte; `-` for none, so that there is always a word.
pub fn hex(bytes: &[u8]) -> String {
    if bytes.is_empty() {
        return "-".to_string();
    }
    bytes.iter().map(|byte| format!("{byte:02x}")).collect()
}

pub fn from_hex(text: &str) -> Option<Vec<u8>> {
    if text == "-" {
        return Some(Vec::new());
    }
    if !text.is_ascii() || text.len() % 2 == 1 {
        return None;
    }
    (0..text.len())
        .step_by(2)
        .map(|i| u8::from_str_radix(&text[i..i + 2], 16).ok())
        .collect()
}
