//! The library under test: the six functions of its header on slices, and the header's numbers of
//! cores and answers.
#![allow(dead_code)] // each program uses a part of it

use crate::plain::{Answer, Core, Stop};
use std::ptr::{null, null_mut};

pub const RESET: u64 = 0;
pub const LOAD: u64 = 1;
pub const RUN: u64 = 2;
pub const STEP: u64 = 3;
pub const VIEW: u64 = 4;

/// What the functions return.
pub const OK: u32 = 0;
pub const WRONG_LENGTH: u32 = 1;
pub const PAST_END: u32 = 4;
pub const UNDEFINED: u32 = 6;
pub const SHORT_TEXT: u32 = 10;
pub const NO_ROOM: u32 = 100;
pub const NO_CORE: u32 = 101;
pub const NO_CALL: u32 = 102;
pub const NO_STRETCH: u32 = 103;
pub const TOO_LONG: u32 = 104;

/// Numbers of a call, an answer, a row of a trace and a form; bytes of a written line.
pub const CALL: usize = 3;
pub const ANSWER: usize = 23;
pub const ROW: usize = 4;
pub const FORM: usize = 7;
pub const LINE: usize = 10;

#[rustfmt::skip]
extern "C" {
    fn r8_replay(calls: *const u64, calls_count: usize, text: *const u8, text_count: usize,
        memory: *mut u16, memory_count: usize, answers: *mut u64, answers_count: usize, at: *mut u64) -> u32;
    fn r8_trace(listing: *const u8, listing_count: usize, rows: *mut u64, rows_count: usize,
        answer: *mut u64, answer_count: usize) -> u32;
    fn r8_form(word: u16, form: *mut u16, form_count: usize) -> u32;
    fn r8_listing(memory: *const u16, memory_count: usize, first: usize, count: usize,
        text: *mut u8, text_count: usize) -> u32;
    fn r8_run(registers: *mut u16, registers_count: usize, state: *mut u32, state_count: usize, b: u32,
        memory: *mut u16, memory_count: usize, answer: *mut u64, answer_count: usize) -> u32;
    fn r8_step(registers: *mut u16, registers_count: usize, state: *mut u32, state_count: usize,
        memory: *mut u16, memory_count: usize, answer: *mut u64, answer_count: usize) -> u32;
}

// No two slices that are lent to be written overlap: that is all the header asks.

pub fn replay(
    calls: &[u64],
    text: &[u8],
    memory: &mut [u16],
    answers: &mut [u64],
    at: &mut u64,
) -> u32 {
    unsafe {
        r8_replay(
            calls.as_ptr(),
            calls.len(),
            text.as_ptr(),
            text.len(),
            memory.as_mut_ptr(),
            memory.len(),
            answers.as_mut_ptr(),
            answers.len(),
            at,
        )
    }
}

pub fn trace(listing: &[u8], rows: &mut [u64], answer: &mut [u64]) -> u32 {
    unsafe {
        r8_trace(
            listing.as_ptr(),
            listing.len(),
            rows.as_mut_ptr(),
            rows.len(),
            answer.as_mut_ptr(),
            answer.len(),
        )
    }
}

pub fn form(word: u16, form: &mut [u16]) -> u32 {
    unsafe { r8_form(word, form.as_mut_ptr(), form.len()) }
}

/// Empty slices are passed as null pointers if `nulls` says so. The memory is lent to be written
/// only so that a change of it shows.
pub fn listing(
    memory: &mut [u16],
    first: usize,
    count: usize,
    text: &mut [u8],
    nulls: bool,
) -> u32 {
    let memory_at = match nulls && memory.is_empty() {
        true => null(),
        false => memory.as_mut_ptr(),
    };
    let text_at = match nulls && text.is_empty() {
        true => null_mut(),
        false => text.as_mut_ptr(),
    };
    unsafe { r8_listing(memory_at, memory.len(), first, count, text_at, text.len()) }
}

pub fn run(
    registers: &mut [u16],
    state: &mut [u32],
    b: u32,
    memory: &mut [u16],
    answer: &mut [u64],
) -> u32 {
    unsafe {
        r8_run(
            registers.as_mut_ptr(),
            registers.len(),
            state.as_mut_ptr(),
            state.len(),
            b,
            memory.as_mut_ptr(),
            memory.len(),
            answer.as_mut_ptr(),
            answer.len(),
        )
    }
}

pub fn step(
    registers: &mut [u16],
    state: &mut [u32],
    memory: &mut [u16],
    answer: &mut [u64],
) -> u32 {
    unsafe {
        r8_step(
            registers.as_mut_ptr(),
            registers.len(),
            state.as_mut_ptr(),
            state.len(),
            memory.as_mut_ptr(),
            memory.len(),
            answer.as_mut_ptr(),
            answer.len(),
        )
    }
}

/// R0 to R15, PC, SP, IR, RA, RB, RALU.
pub fn registers_of(core: &Core) -> [u16; 22] {
    let mut numbers = [0; 22];
    numbers[..16].copy_from_slice(&core.r);
    numbers[16..].copy_from_slice(&[core.pc, core.sp, core.ir, core.ra, core.rb, core.ralu]);
    numbers
}

/// Flags, stop state, cycle due, clock.
pub fn state_of(core: &Core) -> [u32; 4] {
    [
        core.flags() as u32,
        stop_of(core.stop),
        core.due as u32,
        core.clock,
    ]
}

fn stop_of(stop: Stop) -> u32 {
    match stop {
        Stop::Going => 0,
        Stop::Halted => 1,
        Stop::Undefined => 2,
    }
}

/// What a list of calls left of a core, in 23 numbers.
pub fn left_of(core: &Core) -> [u64; ANSWER] {
    let spent = core.due as u64 - 1;
    let mut numbers = [0; ANSWER];
    numbers[0] = 6;
    if spent == 0 {
        let registers = registers_of(core).map(u64::from);
        numbers[1..19].copy_from_slice(&registers[..18]);
        numbers[19] = core.flags() as u64;
    }
    numbers[20..].copy_from_slice(&[stop_of(core.stop) as u64, spent, core.clock as u64]);
    numbers
}

/// The 23 numbers of an answer.
pub fn answer_of(answer: &Answer) -> [u64; ANSWER] {
    let mut numbers = [0; ANSWER];
    let mut put =
        |first: usize, values: &[u64]| numbers[first..][..values.len()].copy_from_slice(values);
    match answer {
        Answer::Done => put(0, &[0]),
        Answer::Stored(words) => put(0, &[1, *words as u64]),
        Answer::Ran {
            cycles,
            instructions,
            end,
        } => put(0, &[2, *cycles as u64, *instructions as u64, *end as u64]),
        Answer::Viewed(view) => {
            put(0, &[3]);
            put(1, &view.r.map(u64::from));
            put(17, &[view.pc as u64, view.sp as u64, view.flags as u64]);
            put(
                20,
                &[
                    stop_of(view.stop) as u64,
                    view.due as u64,
                    view.clock as u64,
                ],
            );
        }
        Answer::Refused(number) => put(0, &[4, *number as u64]),
        Answer::RefusedAt(number, offset) => put(0, &[5, *number as u64, *offset as u64]),
    }
    numbers
}
