//! Differences in a readable form.

use crate::library::*;
use crate::plain::Core;
use std::fmt::{Debug, Write};

pub fn difference<T: PartialEq>(got: &[T], want: &[T]) -> Option<usize> {
    (0..got.len().max(want.len())).find(|&at| got.get(at) != want.get(at))
}

pub fn same<T: PartialEq + Debug>(name: &str, got: &[T], want: &[T]) -> Result<(), String> {
    let Some(at) = difference(got, want) else {
        return Ok(());
    };
    if got.len() < 6 {
        return Err(format!("{name}: {got:?}, expected {want:?}"));
    }
    Err(format!(
        "{name} {at:04X} is {:04X?}, expected {:04X?}",
        got[at], want[at]
    ))
}

/// The first `count` answers, what the list left among them, must be as expected, and what is past them the mark.
pub fn same_answers(got: &[u64], want: &[u64], count: usize) -> Result<(), String> {
    let Some(at) = difference(got, want) else {
        return Ok(());
    };
    let call = at / ANSWER;
    if call >= count {
        return Err(format!(
            "number {at} of the answers was changed to {}",
            got[at]
        ));
    }
    let [got, want] = [got, want].map(|answers| show_answer(&answers[call * ANSWER..][..ANSWER]));
    Err(format!("call {call} answers: {got}\n  expected: {want}"))
}

/// Lines of a text, counted from 0; the last may be a part of one.
pub fn same_text(got: &[u8], want: &[u8]) -> Result<(), String> {
    let Some(at) = difference(got, want) else {
        return Ok(());
    };
    let line = at / LINE;
    let [got, want] = [got, want].map(|text| {
        let shown = text.chunks(LINE).nth(line).unwrap_or(&[]);
        shown.escape_ascii().to_string()
    });
    Err(format!("line {line} is \"{got}\", expected \"{want}\""))
}

pub fn words(words: &[u16]) -> String {
    words.iter().map(|word| format!(" {word:04X}")).collect()
}

pub fn show_call(call: &[u64]) -> String {
    match *call {
        [RESET, _, _] => "reset".to_string(),
        [LOAD, first, second] => format!("load {first}..{second}"),
        [RUN, b, _] => format!("run {b}"),
        [STEP, _, _] => "step".to_string(),
        [VIEW, _, _] => "view".to_string(),
        _ => format!("{call:?}"),
    }
}

/// An answer, or what a list left, in words; as numbers where it is neither.
pub fn show_answer(answer: &[u64]) -> String {
    let is = |case: u64, named: usize| answer[0] == case && answer[named..].iter().all(|&n| n == 0);
    match *answer {
        _ if is(0, 1) => "done".to_string(),
        [_, stored, ..] if is(1, 2) => format!("stored {stored}"),
        [_, cycles, instructions, end @ 32..=126, ..] if is(2, 4) => {
            format!(
                "ran cycles {cycles} instructions {instructions} end {}",
                end as u8 as char
            )
        }
        [case @ (3 | 6), ref r @ .., pc, sp, flags, stop, cycle, clock] => {
            let (what, named) = [("", "due"), ("left ", "spent")][(case == 6) as usize];
            let r: String = r.iter().map(|word| format!(" {word:04X}")).collect();
            let state = format!("NZCV {flags:04b} stop {stop} {named} {cycle} clock {clock}");
            format!("{what}R0 to R15{r} PC {pc:04X} SP {sp:04X} {state}")
        }
        [_, number, ..] if is(4, 2) => format!("refused {number}"),
        [_, number, offset, ..] if is(5, 3) => format!("refused {number} at {offset}"),
        _ => format!("{answer:?}"),
    }
}

pub fn show_core(core: &Core) -> String {
    let registers = registers_of(core);
    let [flags, stop, due, clock] = state_of(core);
    let state = format!("NZCV {flags:04b} stop {stop} due {due} clock {clock}");
    let (r, rest) = (words(&registers[..16]), words(&registers[16..]));
    format!("R0 to R15{r} PC, SP, IR, RA, RB, RALU{rest} {state}")
}

pub fn show_memory(memory: &[u16]) -> String {
    let mut out = format!(
        "memory of {} words; rows with no word but 0 are left out",
        memory.len()
    );
    let rows = memory
        .chunks(16)
        .enumerate()
        .filter(|(_, row)| row.iter().any(|&word| word != 0));
    for (number, row) in rows.take(80) {
        let _ = write!(out, "\n    {:04X}:{}", number * 16, words(row));
    }
    out
}
