//! Lists of calls for r8_replay: drawn, played on both sides, compared, and what they met counted.

use crate::draw::{self, Rng, LONG, TABLE};
use crate::library::*;
use crate::plain::{decode, Answer, Core, Op, Stop};
use crate::show::*;
use crate::MARK;
use std::collections::BTreeMap;
use std::fmt::Write;

#[derive(Clone)]
struct List {
    calls: Vec<u64>,
    text: Vec<u8>,
    memory: Vec<u16>,
    room: usize, // numbers that the answers can hold
}

/// One call of a list on the plain simulator.
fn play(
    core: &mut Core,
    call: &[u64],
    text: &[u8],
    memory: &mut [u16],
    seen: impl FnMut(&Core),
) -> Answer {
    match call[0] {
        RESET => core.reset(),
        LOAD => core.load(&text[call[1] as usize..call[2] as usize], memory),
        RUN => core.run_seen(call[1] as u32, memory, seen),
        STEP => core.step_seen(memory, seen),
        _ => core.view(),
    }
}

/// A list, played while it is drawn so that resets follow stops and no run is long; and the same
/// calls with no budget above LONG: a view in place of a run refused with 9.
fn draw_list(rng: &mut Rng) -> (List, Vec<u64>) {
    let length = draw::length(rng, 40);
    let memory = draw::memory(rng, length);
    let mut text = Vec::new();
    let mut stretches = Vec::new();
    for _ in 0..rng.below(4) {
        let (start, lines) = (text.len(), rng.up_to(60));
        text.extend(draw::listing(rng, length, lines));
        stretches.push((start, text.len()));
    }
    stretches.push((0, text.len()));
    let count = match rng.below(200) {
        0 => 500 + rng.up_to(1_000),
        1..=20 => rng.up_to(3),
        _ => rng.up_to(40),
    };
    let (mut calls, mut short_calls) = (Vec::new(), Vec::new());
    let (mut core, mut now) = (Core::fresh(), memory.clone());
    let mut add = |mut call: [u64; CALL], core: &mut Core, now: &mut [u16]| {
        let answer = play(core, &call, &text, now, |_| {});
        calls.extend(call);
        if answer == Answer::Refused(9) {
            call = [VIEW, 0, 0];
        } else if call[0] == RUN {
            call[1] = call[1].min(LONG as u64);
        }
        short_calls.extend(call);
    };
    for number in 0..count {
        let lost = core.stop != Stop::Going || core.pc as usize >= length;
        let case = match () {
            _ if number == 0 && !rng.one_in(4) => LOAD,
            _ if lost && rng.one_in(2) => RESET,
            _ if core.due != 1 && rng.one_in(2) => RUN,
            _ => rng.pick(&[0, 1, 1, 2, 2, 2, 2, 2, 2, 3, 3, 3, 3, 3, 4, 4, 4]),
        };
        let mut call = [case, rng.next() >> rng.below(64), rng.next()]; // the rest is ignored
        if case == LOAD {
            let start = rng.up_to(text.len());
            let (first, second) = match rng.below(10) {
                0 => (start, start + rng.up_to(text.len() - start)),
                1 => (start, start),
                _ => rng.pick(&stretches),
            };
            call = [case, first as u64, second as u64];
        } else if case == RUN {
            call[1] = draw::budget(rng, &core, &now) as u64;
        }
        add(call, &mut core, &mut now);
    }
    // Half of the lists end with a view, many others amid a store, some as they are.
    let end = rng.below(8);
    if end < 4 {
        while core.due != 1 {
            add([RUN, 1, 0], &mut core, &mut now);
        }
        add([VIEW, 0, 0], &mut core, &mut now);
    } else if end < 7 {
        for _ in 0..20 {
            let word = now.get(core.pc as usize).copied().unwrap_or(0);
            if core.due != 1 || core.stop != Stop::Going {
                break;
            }
            if let Op::St | Op::Push | Op::Jsrr | Op::Jsr | Op::Jsrd = decode(word) {
                add([RUN, 1 + rng.below(3), 0], &mut core, &mut now);
                break;
            }
            add([STEP, 0, 0], &mut core, &mut now);
        }
    }
    let room = (calls.len() / CALL + 1) * ANSWER + rng.pick(&[0, 0, 1, 22, 23, 50]);
    (
        List {
            calls,
            text,
            memory,
            room,
        },
        short_calls,
    )
}

/// Puts something into a list that r8_replay must refuse.
fn spoil(rng: &mut Rng, list: &mut List) {
    let (count, bytes) = (list.calls.len() / CALL, list.text.len() as u64);
    let place = rng.up_to(count) * CALL;
    let first = rng.below(bytes + 1);
    let call = match rng.below(6) {
        0 => [rng.pick(&[5, 6, 255, 1 << 32, 1 << 32 | 2, u64::MAX]), 0, 0],
        1 => [
            RUN,
            rng.pick(&[1 << 32, (1 << 32) + 5, 1 << 63, u64::MAX]),
            0,
        ],
        2 => [LOAD, first + 1, rng.below(first + 1)],
        3 => [
            LOAD,
            first,
            rng.pick(&[bytes + 1, bytes + (1 << 32), u64::MAX]),
        ],
        4 => {
            let rest = [rng.pick(&[RESET, RUN, VIEW]), 0];
            return list.calls.extend(&rest[..1 + rng.up_to(1)]);
        }
        _ => {
            let less = rng.pick(&[1, 2, 22, 23, 24, usize::MAX]);
            list.room = ((count + 1) * ANSWER).saturating_sub(less);
            return;
        }
    };
    list.calls.splice(place..place, call);
}

const OUTCOMES: [&str; 7] = [
    "list: case above 4",
    "list: budget above 32 bits",
    "list: fewer than three numbers",
    "list: first above second",
    "list: second past the end",
    "list: answers too short",
    "list: played",
];

/// What r8_replay returns for a list, with *at, and why.
fn verdict(list: &List) -> (u32, u64, &'static str) {
    let calls = list.calls.chunks(CALL);
    let count = calls.len();
    for (at, call) in calls.enumerate() {
        let (code, why) = match *call {
            [case, _, _] if case > VIEW => (NO_CALL, 0),
            [RUN, b, _] if b > u32::MAX as u64 => (NO_CALL, 1),
            [LOAD, first, second] if first > second => (NO_STRETCH, 3),
            [LOAD, _, second] if second > list.text.len() as u64 => (NO_STRETCH, 4),
            [_, _, _] => continue,
            _ => (NO_CALL, 2),
        };
        return (code, at as u64, OUTCOMES[why]);
    }
    match list.room < (count + 1) * ANSWER {
        true => (NO_ROOM, 0, OUTCOMES[5]),
        false => (OK, count as u64, OUTCOMES[6]),
    }
}

/// Plays a list on both sides.
fn compare_list(list: &List, cover: &mut Coverage) -> Result<(), String> {
    let (code, at, why) = verdict(list);
    cover.note(why);
    let (mut core, mut memory) = (Core::fresh(), list.memory.clone());
    let mut answers = vec![MARK; list.room];
    let mut written = 0;
    if code == OK {
        for (call, place) in list.calls.chunks(CALL).zip(answers.chunks_mut(ANSWER)) {
            let seen = |core: &Core| cover.finished(core);
            let answer = play(&mut core, call, &list.text, &mut memory, seen);
            cover.answer(call, &answer);
            place.copy_from_slice(&answer_of(&answer));
            written += 1;
        }
        cover.left(&core);
        answers[written * ANSWER..][..ANSWER].copy_from_slice(&left_of(&core));
        written += 1;
    }
    let (mut got_memory, mut got_at) = (list.memory.clone(), MARK);
    let mut got = vec![MARK; list.room];
    let got_code = replay(
        &list.calls,
        &list.text,
        &mut got_memory,
        &mut got,
        &mut got_at,
    );
    same(
        "return code, *at",
        &[got_code as u64, got_at],
        &[code as u64, at],
    )?;
    same_answers(&got, &answers, written)?;
    same("memory", &got_memory, &memory)
}

/// Compares a list; on a difference finds the shortest beginning that shows one, and shows it.
fn check_list(list: &List, cover: &mut Coverage) -> Result<(), String> {
    let Err(mut what) = compare_list(list, cover) else {
        return Ok(());
    };
    let played = verdict(list).0 == OK;
    let mut calls = &list.calls[..];
    let mut part = list.clone();
    for count in 0..if played { calls.len() / CALL } else { 0 } {
        part.calls = list.calls[..count * CALL].to_vec();
        if let Err(first) = compare_list(&part, &mut Coverage::new()) {
            (what, calls) = (first, &part.calls);
            break;
        }
    }
    let room = list.room;
    let _ = write!(
        what,
        "\n  {}\n  answers of {room} numbers",
        show_memory(&list.memory)
    );
    let _ = write!(what, "\n  text of {} bytes, by offset:", list.text.len());
    let mut offset = 0;
    for line in list.text.split_inclusive(|&byte| byte == b'\n').take(250) {
        let _ = write!(what, "\n  {offset:6} {}", line.escape_ascii());
        offset += line.len();
    }
    let _ = write!(
        what,
        "\n  calls, with the plain simulator's answers if it plays them:"
    );
    let (mut core, mut memory) = (Core::fresh(), list.memory.clone());
    let mut before = core.clone();
    for (number, call) in calls.chunks(CALL).enumerate() {
        let _ = write!(what, "\n  {number:6} {}", show_call(call));
        if played {
            before = core.clone();
            let answer = play(&mut core, call, &list.text, &mut memory, |_| {});
            let _ = write!(what, ": {}", show_answer(&answer_of(&answer)));
        }
    }
    let _ = write!(what, "\n  before the last call: {}", show_core(&before));
    Err(what)
}

/// b. The list with short budgets, or spoiled; then up to its first long budget; then with all. So
/// a library that misses a stop or a refusal is found before it runs for long, or runs once.
pub fn check_drawn_list(rng: &mut Rng, cover: &mut Coverage) -> Result<(), String> {
    let (mut list, short_calls) = draw_list(rng);
    let calls = std::mem::replace(&mut list.calls, short_calls);
    let faults = rng.pick(&[0, 0, 0, 0, 0, 0, 0, 0, 1, 2]);
    for _ in 0..faults {
        spoil(rng, &mut list);
    }
    check_list(&list, cover)?;
    if faults > 0 {
        return Ok(());
    }
    if let Some(at) = difference(&list.calls, &calls) {
        list.calls = calls[..at / CALL * CALL + CALL].to_vec();
        check_list(&list, &mut Coverage::new())?;
        list.calls = calls;
        check_list(&list, cover)?;
    }
    Ok(())
}

/// Finished instructions by row of the table, untaken and taken, and the undefined words of o B
/// and o C after them; other counts by name.
pub struct Coverage {
    finished: [[u64; 2]; 42],
    other: BTreeMap<String, u64>,
}

impl Coverage {
    pub fn new() -> Coverage {
        let refusals = [1, 2, 3, 4, 7, 8, 9].map(|number| format!("refused {number}"));
        let ends = ["H", "U", "B", "M"].map(|end| format!("end {end}"));
        let more = [
            "stack wrapped down",
            "stack wrapped up",
            "run of 4294967295 played",
            "left between instructions",
            "left in an instruction",
        ];
        let names = refusals
            .into_iter()
            .chain(ends)
            .chain(more.map(String::from));
        let other = names
            .chain(OUTCOMES.map(String::from))
            .map(|name| (name, 0))
            .collect();
        Coverage {
            finished: [[0; 2]; 42],
            other,
        }
    }

    fn note(&mut self, name: &str) {
        *self.other.get_mut(name).expect("a name of Coverage::new") += 1;
    }

    fn finished(&mut self, core: &Core) {
        let op = decode(core.ir);
        let row = match op {
            Op::Undefined => 40 + (core.ir >> 12) as usize - 0xB,
            _ => op as usize,
        };
        self.finished[row][core.taken(op) as usize] += 1;
        match (op, core.sp) {
            (Op::Push | Op::Jsrr | Op::Jsr | Op::Jsrd, 0xFFFF) => self.note("stack wrapped down"),
            (Op::Pop | Op::Rts, 0) => self.note("stack wrapped up"),
            _ => {}
        }
    }

    fn answer(&mut self, call: &[u64], answer: &Answer) {
        match answer {
            Answer::Refused(n) | Answer::RefusedAt(n, _) => self.note(&format!("refused {n}")),
            Answer::Ran { end, .. } => {
                self.note(&format!("end {}", *end as char));
                if call[..2] == [RUN, u32::MAX as u64] {
                    self.note("run of 4294967295 played");
                }
            }
            _ => {}
        }
    }

    fn left(&mut self, core: &Core) {
        self.note(match core.due {
            1 => "left between instructions",
            _ => "left in an instruction",
        });
    }

    /// c. Prints the counts; all must be above 0.
    pub fn outcome(&self) -> Result<String, String> {
        let (mut cells, mut missing) = (Vec::new(), Vec::new());
        for (row, [untaken, taken]) in self.finished.iter().enumerate() {
            let name = TABLE
                .get(row)
                .map_or(["undefined B", "undefined C"][row % 2], |row| row.0);
            let jump = name.strip_prefix("JMP").unwrap_or("");
            let conditional = jump.starts_with(['N', 'Z', 'C', 'V']);
            let more = if conditional {
                format!(" / {untaken}")
            } else {
                String::new()
            };
            cells.push(format!("{name:6} {taken}{more}"));
            if *taken == 0 || conditional && *untaken == 0 {
                missing.push(name);
            }
        }
        println!("   finished instructions (conditional jumps: taken / untaken)");
        for row in cells.chunks(4) {
            let row: String = row.iter().map(|cell| format!("{cell:25}")).collect();
            println!("   {}", row.trim_end());
        }
        println!("   calls and lists");
        for (name, count) in &self.other {
            println!("   {name:31} {count}");
            if *count == 0 {
                missing.push(name);
            }
        }
        match missing.is_empty() {
            true => Ok("each of them was met".to_string()),
            false => Err(format!(
                "never met: {}; more lists may be needed",
                missing.join(", ")
            )),
        }
    }
}
