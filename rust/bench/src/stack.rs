//! How much stack the calls take.

use crate::tables::steep;
use fjurkesprek::raw::*;
use fjurkesprek::State;
use std::arch::asm;
use std::hint::black_box;

/// Runs the work 16 bytes times `steps` further down the stack: where its
/// copies stand against the lines of the cache changes its time.
pub fn deeper(steps: usize, work: &mut dyn FnMut()) {
    match steps {
        0 => work(),
        1 => below::<16>(work),
        2 => below::<32>(work),
        _ => below::<48>(work),
    }
}

#[inline(never)]
fn below<const BYTES: usize>(work: &mut dyn FnMut()) {
    let room = [0u8; BYTES];
    black_box(&room);
    work();
}

pub fn print() {
    println!("state: {} bytes", std::mem::size_of::<State>());
    let state = unsafe { fjurke_start(steep()) }.state;
    let calls: [(&str, extern "C" fn(*const State)); 5] = [
        ("slot", slot),
        ("request", request),
        ("late total", late_total),
        ("start", start),
        ("read", read),
    ];
    for (name, call) in calls {
        println!("stack of a {name}: {} bytes", used(call, &state));
    }
}

extern "C" fn slot(state: *const State) {
    unsafe { fjurke_slot(state.cast_mut(), 0) };
}

extern "C" fn request(state: *const State) {
    unsafe { fjurke_request(state.cast_mut(), Ask { name: 1, size: 1 }) };
}

extern "C" fn late_total(state: *const State) {
    unsafe { fjurke_late_total((*state).clone()) };
}

extern "C" fn start(_: *const State) {
    unsafe { fjurke_start(steep()) };
}

extern "C" fn read(state: *const State) {
    unsafe { fjurke_read(state.cast(), 100) };
}

const WORDS: usize = 1 << 14;
const PAINT: u64 = 0xa5a5_5a5a_a5a5_5a5a;

/// The bytes of a painted stack that a call leaves its mark in, with those of its caller here.
fn used(call: extern "C" fn(*const State), state: &State) -> usize {
    let mut stack = vec![PAINT; WORDS];
    let mut own = state.clone();
    let top = (stack.as_mut_ptr_range().end as usize) & !63;
    // SAFETY: the call gets a stack of its own, large enough, and gives the old one back.
    unsafe {
        asm!(
            "mov r12, rsp",
            "mov rsp, {top}",
            "call {call}",
            "mov rsp, r12",
            top = in(reg) top,
            call = in(reg) call,
            in("rdi") &raw mut own,
            out("r12") _,
            clobber_abi("C"),
        );
    }
    let untouched = stack.iter().take_while(|&&word| word == PAINT).count();
    top - (stack.as_ptr() as usize + 8 * untouched)
}
