//! Compares the library with the plain simulator: `compare [LISTS [SEED]]`.
//!
//! Every case has a generator of its own, seeded with SEED plus the number of the case; so
//! `compare 1 S`, with S the sum of both, plays that list alone.

#[path = "draw.rs"]
mod draw;
#[path = "library.rs"]
mod library;
#[path = "lists.rs"]
mod lists;
#[path = "plain.rs"]
mod plain;
#[path = "show.rs"]
mod show;
#[path = "written.rs"]
mod written;

use draw::{Rng, LONG, TABLE};
use library::*;
use lists::{check_drawn_list, Coverage};
use plain::{decode, Answer, Core};
use show::*;
use std::collections::BTreeMap;
use std::fmt::Write;
use std::sync::atomic::{AtomicU64, Ordering::Relaxed};
use std::time::{Duration, Instant};
use written::{check_drawn_listing, check_rows, Met};

/// Stands in all that the library must leave as it was.
const MARK: u64 = 0x5AFE_5AFE_5AFE_5AFE;

type Outcome = Result<String, String>;

/// a. The plain simulator on the rows of document 01.
fn worked() -> Outcome {
    let (mut rows, mut wrong) = (0, Vec::new());
    let mut row = |name: &str, got: String, want: &str| {
        rows += 1;
        if got != want {
            wrong.push(format!("{name}: {got}, expected {want}"));
        }
    };
    // One instruction at an address, by four cycles and by a step: true if they agree.
    let one = |pc: u16, word: u16, set: &dyn Fn(&mut Core)| {
        let (mut core, mut memory) = (
            Core {
                pc,
                ..Core::fresh()
            },
            vec![0; 65_536],
        );
        memory[pc as usize] = word;
        set(&mut core);
        let (mut stepped, mut stepped_memory) = (core.clone(), memory.clone());
        let same = core.run(4, &mut memory) == stepped.step(&mut stepped_memory);
        let same = same && core.view() == stepped.view() && memory == stepped_memory;
        (core, memory, same)
    };
    // R1 and R2 are the operands; R3 holds the first too and takes the result.
    for (name, word, p, q, want) in [
        ("ADD 1008, 1234", 0x0312, 0x1008, 0x1234, "223C 0000 true"),
        ("SUB 1008, 1234", 0x1312, 0x1008, 0x1234, "FDD4 1000 true"),
        ("1018 + k FF", 0x53FF, 0x1018, 0, "1117 0000 true"),
        ("FFFF + k FF", 0x53FF, 0xFFFF, 0, "00FE 0010 true"),
        ("7FFF + k 01", 0x5301, 0x7FFF, 0, "8000 1001 true"),
        ("8000 - k 01", 0x6301, 0x8000, 0, "7FFF 0011 true"),
        ("SR1 of 9754", 0xB313, 0x9754, 0, "CBAA 1000 true"),
        (
            "LDL keeps the high byte",
            0x73FF,
            0x1234,
            0,
            "12FF 0000 true",
        ),
        (
            "LDH keeps the low byte",
            0x83FF,
            0x1234,
            0,
            "FF34 0000 true",
        ),
    ] {
        let (core, _, same) = one(0, word, &|core| core.r[1..4].copy_from_slice(&[p, q, p]));
        row(
            name,
            format!("{:04X} {:04b} {same}", core.r[3], core.flags()),
            want,
        );
    }
    let (core, _, same) = one(0x0010, 0xD3FF, &|_| {});
    row(
        "D3FF at 0010",
        format!("{:04X} {same}", core.pc),
        "0010 true",
    );
    let (core, memory, same) = one(0x0114, 0xF013, &|core| core.sp = 0x0200);
    let called = format!(
        "{:04X} {:04X} {:04X} {same}",
        core.pc, core.sp, memory[0x0200]
    );
    row("F013 at 0114", called, "0128 01FF 0115 true");
    let (core, memory, same) = one(1, 0xB50A, &|core| core.r[5] = 0x1234);
    row(
        "PUSH at SP 0000",
        format!("{:04X} {:04X} {same}", core.sp, memory[0]),
        "FFFF 1234 true",
    );
    let (core, _, same) = one(0, 0xB00B, &|_| {});
    row(
        "B00B",
        format!("{:?} {} {same}", core.stop, core.clock),
        "Undefined 2 true",
    );

    let printed = |listing: &str| {
        let (rows, answer) = plain::trace(listing.as_bytes());
        let mut out = String::new();
        for [address, word, cycles, flags] in rows {
            let _ = writeln!(out, "{address:04X} {word:04X} {cycles} {flags:04b}");
        }
        out + &show_answer(&answer_of(&answer))
    };
    let want = "0000 7105 4 0000\n0001 8100 4 0000\n0002 6105 4 0110\n0003 B006 2 0110\n\
                ran cycles 14 instructions 4 end H";
    for (listing, want) in [
        ("0000 7105\n0001 8100\n0002 6105\n0003 B006\n", want),
        (
            "0000 7105 ; \r\t\n  \n\n0001 8100;;\n0002 6105  \n0003 b006;",
            want,
        ),
        ("0000 1234\n0001  1234", "refused 2 at 10"),
        ("0000 1234\r\n", "refused 2 at 0"),
        ("\n 0000 1234\n", "refused 2 at 1"),
        (";", "refused 2 at 0"),
        ("0000 1234\n0000 1234\n", "refused 3 at 10"),
        ("3FFF 1234\n4000 1234\n0000\n", "refused 4 at 10"),
        ("4000 123\n", "refused 2 at 0"),
    ] {
        row(&format!("{listing:?}"), printed(listing), want);
    }
    for word in 0..=0xFFFF {
        let name = draw::row(word).map_or("UNDEFINED", |row| TABLE[row].0);
        row(
            "decoded",
            format!("{word:04X} {:?}", decode(word)).to_uppercase(),
            &format!("{word:04X} {name}"),
        );
    }
    match wrong.is_empty() {
        true => Ok(format!("{rows} rows, one for each word among them")),
        false => Err(wrong.join("\n  ")),
    }
}

/// Numbered cases, each with its own generator. Shows the first difference; ends with the
/// twentieth, or with the first after half a minute.
fn every(
    count: u64,
    seed: u64,
    name: &str,
    mut case: impl FnMut(&mut Rng) -> Result<(), String>,
) -> Outcome {
    let (start, mut first, mut failed) = (Instant::now(), None, 0);
    for number in 0..count {
        CASE.store(number, Relaxed);
        if let Err(what) = case(&mut Rng(seed.wrapping_add(number))) {
            failed += 1;
            first.get_or_insert(format!("seed {seed}, {name} {number}: {what}"));
        }
        let late = failed >= 20 || start.elapsed() > Duration::from_secs(30);
        if let Some(what) = first.take_if(|_| late || number + 1 == count) {
            let of = number + 1;
            return Err(format!(
                "{what}\n  {failed} of {of} {name}s differ; this is the first"
            ));
        }
    }
    Ok(format!("{count} {name}s"))
}

/// One run of b cycles, or one step, of a core given as numbers.
#[derive(Clone)]
struct Single {
    b: Option<u32>,
    core: Core,
    registers: Vec<u16>,
    state: Vec<u32>,
    memory: Vec<u16>,
    answer: Vec<u64>,
}

fn draw_single(rng: &mut Rng) -> Single {
    let length = draw::length(rng, 150);
    let memory = draw::memory(rng, length);
    let mut core = draw::core(rng, length);
    let mut b = Some(draw::budget(rng, &core, &memory));
    if rng.one_in(3) {
        b = None;
        core.due = rng.pick(&[core.due, 1, 1, 1, 1, 1]);
    }
    let (mut registers, mut state) = (registers_of(&core).to_vec(), state_of(&core).to_vec());
    let mut answer = vec![MARK; ANSWER + rng.up_to(2)];
    for _ in 0..if rng.one_in(25) { 1 + rng.below(2) } else { 0 } {
        let mut set = |place: usize, wrong: u32| {
            state
                .iter_mut()
                .skip(place)
                .take(1)
                .for_each(|number| *number = wrong)
        };
        match rng.below(6) {
            0 => registers.resize(rng.pick(&[0, 1, 16, 21, 23, 44]), 0),
            1 => state.resize(rng.pick(&[0, 1, 3, 5, 8]), 0),
            2 => answer.truncate(rng.pick(&[0, 1, 4, 22])),
            3 => set(0, rng.pick(&[16, 255, 1 << 16])),
            4 => set(1, rng.pick(&[3, 256, 1 << 31])),
            _ => set(2, rng.pick(&[256, 257, u32::MAX])),
        }
    }
    Single {
        b,
        core,
        registers,
        state,
        memory,
        answer,
    }
}

fn compare_single(single: &Single, cover: &mut BTreeMap<String, u64>) -> Result<(), String> {
    let (mut got, mut want) = (single.clone(), single.clone());
    let code = match single.state[..] {
        [0..=15, 0..=2, 0..=255, _] if single.registers.len() == 22 => {
            if single.answer.len() < ANSWER {
                NO_ROOM
            } else {
                OK
            }
        }
        _ => NO_CORE,
    };
    let mut kind = format!("returned {code}");
    if code == OK {
        let (call, answer) = match single.b {
            Some(b) => ("run", want.core.run(b, &mut want.memory)),
            None => ("step", want.core.step(&mut want.memory)),
        };
        kind = match answer {
            Answer::Ran { end, .. } => format!("{call} end {}", end as char),
            _ => format!("{call} {}", show_answer(&answer_of(&answer))),
        };
        want.answer[..ANSWER].copy_from_slice(&answer_of(&answer));
        want.registers = registers_of(&want.core).to_vec();
        want.state = state_of(&want.core).to_vec();
    }
    *cover.entry(kind).or_insert(0) += 1;
    let Single {
        registers,
        state,
        memory,
        answer,
        ..
    } = &mut got;
    let got_code = match single.b {
        Some(b) => run(registers, state, b, memory, answer),
        None => step(registers, state, memory, answer),
    };
    same("return code", &[got_code], &[code])?;
    same_answers(&got.answer, &want.answer, (code == OK) as usize)?;
    same("flags, stop, due, clock", &got.state, &want.state)?;
    if got.registers != want.registers {
        let [got, want] = [got, want].map(|side| words(&side.registers));
        return Err(format!("registers{got}\n   expected{want}"));
    }
    same("memory", &got.memory, &want.memory)
}

/// d. Random cores; a long budget only after a short one.
fn singles(count: u64, seed: u64) -> Outcome {
    let mut cover = BTreeMap::new();
    let outcome = every(count, seed, "core", |rng| {
        let mut single = draw_single(rng);
        let long = single
            .b
            .filter(|&b| b > LONG && b <= u32::MAX - single.core.clock);
        single.b = long.map(|_| LONG).or(single.b);
        let shown = |single: &Single, what: String| {
            let Single {
                b,
                core,
                registers,
                state,
                memory,
                answer,
            } = single;
            let call = b.map_or("step".to_string(), |b| format!("run {b}"));
            let (registers, answer) = (registers.len(), answer.len());
            let passed =
                format!("{registers} registers, state {state:?}, answer of {answer} numbers");
            format!(
                "{call}: {what}\n  from {}\n  passed: {passed}\n  {}",
                show_core(core),
                show_memory(memory)
            )
        };
        compare_single(&single, &mut cover).map_err(|what| shown(&single, what))?;
        if long.is_some() {
            single.b = long;
            compare_single(&single, &mut cover).map_err(|what| shown(&single, what))?;
        }
        Ok(())
    });
    for (name, count) in cover {
        println!("   {name:31} {count}");
    }
    outcome
}

/// e. All words through r8_form.
fn forms() -> Outcome {
    let sign = |value: u16, half: u16| {
        if value < half {
            value
        } else {
            value.wrapping_sub(2 * half)
        }
    };
    for word in 0..=0xFFFF {
        let mark = [MARK as u16; FORM + 2];
        let mut whole = mark;
        let row = draw::row(word);
        if let Some(row) = row {
            whole[..FORM].fill(0);
            whole[0] = row as u16;
            for field in TABLE[row].2.chars() {
                match field {
                    't' => whole[1] = word / 256 % 16,
                    'a' => whole[2] = word / 16 % 16,
                    'b' => whole[3] = word % 16,
                    'k' => whole[4] = word % 256,
                    'd' => whole[5] = sign(word % 1024, 512),
                    _ => whole[6] = sign(word % 4096, 2048),
                }
            }
        }
        for length in 0..=FORM + 2 {
            let (code, want) = if length < FORM {
                (NO_ROOM, mark)
            } else {
                (row.map_or(UNDEFINED, |_| OK), whole)
            };
            let mut got = mark;
            let got_code = form(word, &mut got[..length]);
            if (got_code, got) != (code, want) {
                return Err(format!(
                    "word {word:04X}, {length} numbers: returned {got_code} and {got:?}\n  expected {code} and {want:?}"
                ));
            }
        }
    }
    Ok("65536 words, each with 0 to 9 numbers for the form".to_string())
}

/// A listing through r8_trace; lent are the numbers needed and so many more, or fewer.
fn compare_trace(listing: &[u8], more_rows: isize, more_answer: isize) -> Result<(), String> {
    let (rows, answer) = plain::trace(listing);
    let needed = rows.len() * ROW;
    let mut got_rows = vec![MARK; needed.saturating_add_signed(more_rows)];
    let mut got_answer = vec![MARK; ANSWER.saturating_add_signed(more_answer)];
    let (mut want_rows, mut want_answer) = (got_rows.clone(), got_answer.clone());
    let code = match () {
        _ if listing.len() > 65_536 => TOO_LONG,
        _ if got_rows.len() < needed || got_answer.len() < ANSWER => NO_ROOM,
        _ => OK,
    };
    if code == OK {
        want_rows[..needed].copy_from_slice(&rows.concat());
        want_answer[..ANSWER].copy_from_slice(&answer_of(&answer));
    }
    let got_code = trace(listing, &mut got_rows, &mut got_answer);
    let lent = [got_rows.len(), got_answer.len()];
    let outcome = same("return code", &[got_code], &[code])
        .and_then(|_| same_answers(&got_answer, &want_answer, (code == OK) as usize))
        .and_then(|_| {
            same(
                "row",
                &got_rows.chunks(ROW).collect::<Vec<_>>(),
                &want_rows.chunks(ROW).collect::<Vec<_>>(),
            )
        });
    outcome.map_err(|what| {
        let shown = listing[..listing.len().min(4_000)]
            .escape_ascii()
            .to_string();
        let shown = shown.replace("\\n", "\\n\n    ");
        format!(
            "{what}\n  rows and answer of {lent:?} numbers, listing of {} bytes:\n    {shown}",
            listing.len()
        )
    })
}

/// f. The example of document 01, the limits, each byte at each place of a line, and random listings.
fn traces(count: u64, seed: u64) -> Outcome {
    let example = b"0000 7105\n0001 8100\n0002 6105\n0003 B006\n";
    let faulty = b"0000 7105\n0001 810\n";
    let mut long = b"0000 7105\n0001 B006 ;".to_vec();
    long.resize(65_537, b'x');
    for (listing, more_rows, more_answer) in [
        (&example[..], 0, 0),
        (example, 1_984, 3),
        (example, -1, 0),
        (example, -16, 0),
        (example, 0, -1),
        (example, 0, -23),
        (&long[..65_536], 0, 0),
        (&long, 2_000, 0),
        (b"", 0, 0),
        (faulty, 0, 0),
        (faulty, 2_000, -1),
    ] {
        compare_trace(listing, more_rows, more_answer)?;
    }
    for place in 0..9 {
        for byte in 0..=255 {
            let mut line = *b"0000 7105";
            line[place] = byte;
            compare_trace(&line, 0, 0)?;
        }
    }
    every(count, seed, "listing", |rng| {
        let lines = if rng.one_in(40) {
            rng.up_to(3_000)
        } else {
            rng.up_to(80)
        };
        let mut listing = draw::listing(rng, 16_384, lines);
        listing.truncate(65_536);
        match rng.below(8) {
            0 => compare_trace(&listing, -1 - rng.up_to(6) as isize, 0),
            1 => compare_trace(&listing, 0, -1 - rng.up_to(22) as isize),
            2 => compare_trace(&listing, 0, rng.up_to(3) as isize),
            _ => compare_trace(&listing, rng.up_to(2_000) as isize, 0),
        }
    })
}

/// The case under way, and the groups passed and failed so far.
static CASE: AtomicU64 = AtomicU64::new(0);
static PASSED: AtomicU64 = AtomicU64::new(0);
static FAILED: AtomicU64 = AtomicU64::new(0);

fn finish() -> ! {
    println!(
        "{} passed, {} failed",
        PASSED.load(Relaxed),
        FAILED.load(Relaxed)
    );
    std::process::exit((FAILED.load(Relaxed) > 0) as i32);
}

extern "C" {
    fn signal(number: i32, handler: extern "C" fn(i32)) -> usize;
}

/// The library ended the program, or somebody did while it did not come back.
extern "C" fn ended(number: i32) {
    println!(
        "   FAILED: ended by signal {number} in case {}",
        CASE.load(Relaxed)
    );
    FAILED.fetch_add(1, Relaxed);
    finish();
}

fn group(name: &str, test: impl FnOnce() -> Outcome) {
    println!("{name}");
    CASE.store(0, Relaxed);
    match test() {
        Ok(what) => {
            println!("   passed: {what}");
            PASSED.fetch_add(1, Relaxed);
        }
        Err(what) => {
            println!("   FAILED: {what}");
            FAILED.fetch_add(1, Relaxed);
        }
    }
}

fn main() {
    let numbers: Result<Vec<u64>, _> = std::env::args().skip(1).map(|word| word.parse()).collect();
    let (lists, seed) = match numbers.as_deref() {
        Ok([]) => (20_000, 1),
        Ok([lists]) => (*lists, 1),
        Ok([lists, seed]) => (*lists, *seed),
        _ => {
            eprintln!("usage: compare [LISTS [SEED]]");
            std::process::exit(2);
        }
    };
    for number in [2, 4, 6, 7, 8, 11, 15] {
        unsafe { signal(number, ended) };
    }
    let mut cover = Coverage::new();
    group("a. the plain simulator on the rows of document 01", worked);
    group("b. r8_replay: random lists of calls", || {
        every(lists, seed, "list", |rng| check_drawn_list(rng, &mut cover))
    });
    group("c. what these lists met, by the plain simulator", || {
        cover.outcome()
    });
    group("d. r8_run and r8_step: random cores", || {
        singles(lists.saturating_mul(10).max(200_000), seed)
    });
    group("e. r8_form: all words", forms);
    group("f. r8_trace: random listings", || {
        traces((lists / 4).max(5_000), seed)
    });
    let mut met = Met::new();
    group("g. r8_listing: rows by hand, and whole memories", || {
        check_rows(&mut met)
    });
    group("h. r8_listing: random stretches of memory", || {
        every(lists.max(20_000), seed, "listing", |rng| {
            check_drawn_listing(rng, &mut met)
        })
    });
    group("i. what these listings met, by the plain writer", || {
        met.outcome()
    });
    finish();
}

/// Group a alone, which needs no library: `rustc --test tests/library/compare.rs`.
#[test]
fn plain_simulator() {
    println!("{}", worked().unwrap_or_else(|what| panic!("{what}")));
}
