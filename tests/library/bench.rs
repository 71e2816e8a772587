//! Times the library against the plain simulator, and a listing out of memory against a plain
//! writer in C, call by call the same work on both sides.

#[path = "library.rs"]
mod library;
#[path = "plain.rs"]
mod plain;

use library::{answer_of, left_of, registers_of, state_of, ANSWER, CALL, LINE, LOAD, OK, RUN};
use plain::Core;
use std::hint::black_box;
use std::time::{Duration, Instant};

const TURNS: u32 = 5;
const WORDS: usize = 1_024; // L of the three programs
const RUN_CYCLES: u32 = 20_000_000; // of a run and of a replay
const REPLAYED_RUNS: u32 = 20; // in a replay
const CALLS: u32 = 3_000_000; // runs of 1 cycle, and steps
const LISTINGS: u32 = 50; // out of memory

#[rustfmt::skip]
extern "C" {
    // plain_listing.c
    fn plain_listing(memory: *const u16, memory_count: usize, first: usize, count: usize,
        text: *mut u8, text_count: usize) -> u32;
}

/// Endless loops.
const PROGRAMS: [(&str, &[u16]); 3] = [
    (
        "stack, memory and calls",
        &[
            0x7E00, // 0000 LDL RE, 00
            0x8E02, // 0001 LDH RE, 02
            0xB0E7, // 0002 LDSP RE: SP is 0200
            0x7140, // 0003 LDL R1, 40
            0x8101, // 0004 LDH R1, 01: R1 is 0140
            0xB10A, // 0005 PUSH R1
            0xB209, // 0006 POP R2
            0x9312, // 0007 LD R3, M(R1+R2)
            0x5301, // 0008 ADDI R3, 01
            0xA312, // 0009 ST R3, M(R1+R2)
            0xF003, // 000A JSRD 000E
            0xB30A, // 000B PUSH R3
            0xB409, // 000C POP R4
            0xD3F7, // 000D JMPD 0005
            0x9412, // 000E LD R4, M(R1+R2)
            0xB008, // 000F RTS
        ],
    ),
    (
        "arithmetic",
        &[
            0x7103, // 0000 LDL R1, 03
            0x8112, // 0001 LDH R1, 12
            0x7235, // 0002 LDL R2, 35
            0x8277, // 0003 LDH R2, 77
            0x0312, // 0004 ADD R3, R1, R2
            0x1413, // 0005 SUB R4, R1, R3
            0x2534, // 0006 AND R5, R3, R4
            0x3645, // 0007 OR R6, R4, R5
            0x4756, // 0008 XOR R7, R5, R6
            0x5111, // 0009 ADDI R1, 11
            0x6207, // 000A SUBI R2, 07
            0xB810, // 000B SL0 R8, R1
            0xB923, // 000C SR1 R9, R2
            0xBA34, // 000D NOT RA, R3
            0x7B55, // 000E LDL RB, 55
            0x8BAA, // 000F LDH RB, AA
            0xD3F3, // 0010 JMPD 0004
        ],
    ),
    (
        "branches",
        &[
            0x7401, // 0000 LDL R4, 01
            0x7502, // 0001 LDL R5, 02
            0x5101, // 0002 ADDI R1, 01
            0x2214, // 0003 AND R2, R1, R4: Z every other time
            0xE401, // 0004 JMPZD 0006
            0xB005, // 0005 NOP
            0xE001, // 0006 JMPND 0008: never
            0xEC01, // 0007 JMPVD 0009: seldom
            0xC054, // 0008 JMPVR R5: seldom
            0xE801, // 0009 JMPCD 000B: seldom
            0xC050, // 000A JMPR R5: to 000D
            0xB005, // 000B NOP
            0xB005, // 000C NOP
            0xC052, // 000D JMPZR R5: to 0010, every other time
            0xB005, // 000E NOP
            0xB005, // 000F NOP
            0xD3F1, // 0010 JMPD 0002
        ],
    ),
];

/// What a side has at the end of a turn: the numbers of its core or answers, and its memory.
type End = (Vec<u64>, Vec<u16>);

/// Turns of both sides in alternation; the best time of each.
fn time<E: PartialEq>(
    mut library: impl FnMut() -> (Duration, E),
    mut plain: impl FnMut() -> (Duration, E),
) -> [f64; 2] {
    let mut best = [Duration::MAX; 2];
    for _ in 0..TURNS {
        let ((time_1, end_1), (time_2, end_2)) = (library(), plain());
        if end_1 != end_2 {
            println!("the two sides differ: the times mean nothing; see tests/library/run");
            std::process::exit(1);
        }
        best = [best[0].min(time_1), best[1].min(time_2)];
    }
    best.map(|time| time.as_secs_f64())
}

fn print(program: &str, call: &str, amount: f64, seconds: [f64; 2]) {
    let [library, plain] = seconds.map(|time| amount / time / 1e6);
    println!(
        "{program:24} {call:22} {library:9.1} {plain:9.1} {:9.2}",
        library / plain
    );
}

fn memory_of(program: &[u16]) -> Vec<u16> {
    let mut memory = program.to_vec();
    memory.resize(WORDS, 0);
    memory
}

fn numbers_of(registers: &[u16], state: &[u32]) -> Vec<u64> {
    let registers = registers.iter().map(|&number| number as u64);
    registers
        .chain(state.iter().map(|&number| number as u64))
        .collect()
}

/// Calls of the library on a fresh core given as numbers.
fn library_turn(
    program: &[u16],
    mut calls: impl FnMut(&mut [u16], &mut [u32], &mut [u16], &mut [u64]),
) -> (Duration, End) {
    let (mut memory, mut answer) = (memory_of(program), [0; ANSWER]);
    let (mut registers, mut state) = (registers_of(&Core::fresh()), state_of(&Core::fresh()));
    let start = Instant::now();
    calls(&mut registers, &mut state, &mut memory, &mut answer);
    (start.elapsed(), (numbers_of(&registers, &state), memory))
}

/// The same of the plain simulator.
fn plain_turn(program: &[u16], mut calls: impl FnMut(&mut Core, &mut [u16])) -> (Duration, End) {
    let (mut memory, mut core) = (memory_of(program), Core::fresh());
    let start = Instant::now();
    calls(black_box(&mut core), &mut memory);
    (
        start.elapsed(),
        (numbers_of(&registers_of(&core), &state_of(&core)), memory),
    )
}

fn cycles_of_steps(program: &[u16]) -> f64 {
    let (mut memory, mut core) = (memory_of(program), Core::fresh());
    for _ in 0..CALLS {
        core.step(&mut memory);
    }
    core.clock as f64
}

fn programs() {
    for (name, program) in PROGRAMS {
        let seconds = time(
            || {
                library_turn(program, |registers, state, memory, answer| {
                    black_box(library::run(
                        registers,
                        state,
                        black_box(RUN_CYCLES),
                        memory,
                        answer,
                    ));
                })
            },
            || {
                plain_turn(program, |core, memory| {
                    drop(black_box(core.run(black_box(RUN_CYCLES), memory)))
                })
            },
        );
        print(name, "run", RUN_CYCLES as f64, seconds);

        let seconds = time(
            || {
                library_turn(program, |registers, state, memory, answer| {
                    for _ in 0..CALLS {
                        black_box(library::run(registers, state, black_box(1), memory, answer));
                    }
                })
            },
            || {
                plain_turn(program, |core, memory| {
                    for _ in 0..CALLS {
                        black_box(core.run(black_box(1), memory));
                    }
                })
            },
        );
        print(name, "run of 1 at a time", CALLS as f64, seconds);

        let seconds = time(
            || {
                library_turn(program, |registers, state, memory, answer| {
                    for _ in 0..CALLS {
                        black_box(library::step(registers, state, memory, answer));
                    }
                })
            },
            || {
                plain_turn(program, |core, memory| {
                    for _ in 0..CALLS {
                        black_box(core.step(memory));
                    }
                })
            },
        );
        print(name, "step", cycles_of_steps(program), seconds);

        let seconds = replay(
            &listing(program, ""),
            WORDS,
            REPLAYED_RUNS,
            RUN_CYCLES / REPLAYED_RUNS,
        );
        print(name, "replay", RUN_CYCLES as f64, seconds);
    }
}

fn listing(words: &[u16], comment: &str) -> String {
    words
        .iter()
        .enumerate()
        .map(|(address, word)| format!("{address:04X} {word:04X}{comment}\n"))
        .collect()
}

/// A load and some runs on a fresh core and zero memory, by r8_replay and by the plain simulator.
fn replay(text: &str, words: usize, runs: u32, budget: u32) -> [f64; 2] {
    let mut calls = vec![LOAD, 0, text.len() as u64];
    for _ in 0..runs {
        calls.extend([RUN, budget as u64, 0]);
    }
    time(
        || {
            let (mut memory, mut at) = (vec![0; words], 0);
            let mut answers = vec![0; (calls.len() / CALL + 1) * ANSWER];
            let start = Instant::now();
            black_box(library::replay(
                &calls,
                text.as_bytes(),
                &mut memory,
                &mut answers,
                &mut at,
            ));
            (start.elapsed(), (answers, memory))
        },
        || {
            let (mut memory, mut core) = (vec![0; words], Core::fresh());
            let mut answers = Vec::with_capacity((calls.len() / CALL + 1) * ANSWER);
            let start = Instant::now();
            let loaded = black_box(&mut core).load(black_box(text.as_bytes()), &mut memory);
            answers.extend(answer_of(&loaded));
            for _ in 0..runs {
                answers.extend(answer_of(&core.run(black_box(budget), &mut memory)));
            }
            answers.extend(left_of(&core));
            (start.elapsed(), (answers, memory))
        },
    )
}

/// The whole of a memory as a listing, some times over into the same text: return codes and bytes.
fn listings_turn(
    words: &[u16],
    mut listing: impl FnMut(&mut [u16], usize, &mut [u8]) -> u32,
) -> (Duration, (Vec<u32>, Vec<u8>)) {
    let (mut memory, mut codes) = (words.to_vec(), vec![u32::MAX; LISTINGS as usize]);
    let mut text = vec![b'?'; words.len() * LINE];
    let start = Instant::now();
    for code in &mut codes {
        *code = listing(black_box(&mut memory), black_box(words.len()), &mut text);
    }
    (start.elapsed(), (codes, text))
}

fn listings(words: &[u16]) -> [f64; 2] {
    time(
        || {
            listings_turn(words, |memory, count, text| {
                library::listing(memory, 0, count, text, false)
            })
        },
        || {
            listings_turn(words, |memory, count, text| unsafe {
                let (words, bytes) = (memory.len(), text.len());
                let code =
                    plain_listing(memory.as_ptr(), words, 0, count, text.as_mut_ptr(), bytes);
                assert_eq!(code, OK, "the plain writer");
                code
            })
        },
    )
}

fn main() {
    println!(
        "The library against the plain simulator: the same calls on both sides, in alternation."
    );
    println!("The best of {TURNS} turns counts. Each program is an endless loop in {WORDS} words.");
    println!("run: one r8_run of {RUN_CYCLES} cycles");
    println!("run of 1 at a time: {CALLS} calls of r8_run, budget 1");
    println!("step: {CALLS} calls of r8_step");
    println!(
        "replay: one r8_replay of a load and {REPLAYED_RUNS} runs, {RUN_CYCLES} cycles in all"
    );
    println!("load: one r8_replay of a load of 65536 lines into 65536 words");
    println!("listing: {LISTINGS} calls of r8_listing of 65536 words, against a plain writer in C (cc -O3)");
    println!();
    println!("million cycles a second                           library     plain     ratio");
    programs();
    println!();
    println!("million bytes a second                            library     plain     ratio");
    let words: Vec<u16> = (0..=0xFFFF)
        .map(|word: u16| word.wrapping_mul(40_503))
        .collect();
    for (name, comment) in [
        ("bare lines", ""),
        ("lines with comments", " ; takes the next operand"),
    ] {
        let text = listing(&words, comment);
        print(name, "load", text.len() as f64, replay(&text, 65_536, 0, 0));
    }
    let bytes = words.len() * LINE * LISTINGS as usize;
    print(
        "listing out of memory",
        "listing",
        bytes as f64,
        listings(&words),
    );
}
