//! Random words, programs, listings, memories, cores and budgets for the comparison.

use crate::plain::{Answer, Core, Stop};

/// The table of document 01: name, word with its fields zero, fields used (d is d10, D is d12).
#[rustfmt::skip]
pub const TABLE: [(&str, u16, &str); 40] = [
    ("ADD", 0x0000, "tab"), ("SUB", 0x1000, "tab"), ("AND", 0x2000, "tab"), ("OR", 0x3000, "tab"),
    ("XOR", 0x4000, "tab"), ("ADDI", 0x5000, "tk"), ("SUBI", 0x6000, "tk"), ("LDL", 0x7000, "tk"),
    ("LDH", 0x8000, "tk"), ("LD", 0x9000, "tab"), ("ST", 0xA000, "tab"),
    ("SL0", 0xB000, "ta"), ("SL1", 0xB001, "ta"), ("SR0", 0xB002, "ta"), ("SR1", 0xB003, "ta"),
    ("NOT", 0xB004, "ta"), ("NOP", 0xB005, ""), ("HALT", 0xB006, ""), ("LDSP", 0xB007, "a"),
    ("RTS", 0xB008, ""), ("POP", 0xB009, "t"), ("PUSH", 0xB00A, "t"),
    ("JMPR", 0xC000, "a"), ("JMPNR", 0xC001, "a"), ("JMPZR", 0xC002, "a"), ("JMPCR", 0xC003, "a"),
    ("JMPVR", 0xC004, "a"), ("JMP", 0xC005, "a"), ("JMPN", 0xC006, "a"), ("JMPZ", 0xC007, "a"),
    ("JMPC", 0xC008, "a"), ("JMPV", 0xC009, "a"), ("JSRR", 0xC00A, "a"), ("JSR", 0xC00B, "a"),
    ("JMPD", 0xD000, "d"), ("JMPND", 0xE000, "d"), ("JMPZD", 0xE400, "d"), ("JMPCD", 0xE800, "d"),
    ("JMPVD", 0xEC00, "d"), ("JSRD", 0xF000, "D"),
];

/// The bits that tell which instruction a word is.
fn telling_bits(word: u16) -> u16 {
    match word >> 12 {
        0xB | 0xC => 0xF00F,
        0xE => 0xFC00,
        _ => 0xF000,
    }
}

/// The row of a word in the table; none for an undefined word.
pub fn row(word: u16) -> Option<usize> {
    TABLE
        .iter()
        .position(|&(_, base, _)| word & telling_bits(base) == base)
}

/// Cycles of a long run. A budget above it is refused with 9, or the core stops sooner.
pub const LONG: u32 = 3_000;

/// The generator splitmix64.
pub struct Rng(pub u64);

impl Rng {
    pub fn next(&mut self) -> u64 {
        self.0 = self.0.wrapping_add(0x9E37_79B9_7F4A_7C15);
        let mut x = self.0;
        x = (x ^ x >> 30).wrapping_mul(0xBF58_476D_1CE4_E5B9);
        x = (x ^ x >> 27).wrapping_mul(0x94D0_49BB_1331_11EB);
        x ^ x >> 31
    }
    pub fn below(&mut self, n: u64) -> u64 {
        self.next() % n
    }
    pub fn up_to(&mut self, n: usize) -> usize {
        self.below(n as u64 + 1) as usize
    }
    pub fn one_in(&mut self, n: u64) -> bool {
        self.below(n) == 0
    }
    pub fn pick<T: Copy>(&mut self, from: &[T]) -> T {
        from[self.up_to(from.len() - 1)]
    }
    pub fn word(&mut self) -> u16 {
        self.next() as u16
    }
}

/// All rows of the table about alike, few stops, mostly short displacements.
pub fn instruction(rng: &mut Rng) -> u16 {
    if rng.one_in(80) {
        let (o, least) = rng.pick(&[(0xB000, 0xB), (0xC000, 0xC)]); // undefined words
        return o | rng.word() & 0x0FF0 | least + rng.below(16 - least as u64) as u16;
    }
    let (name, base, fields) = rng.pick(&TABLE);
    if name == "HALT" && rng.one_in(2) {
        return instruction(rng);
    }
    let word = base | rng.word() & !telling_bits(base);
    let short = (rng.below(24) as u16).wrapping_sub(12);
    match fields {
        "d" if !rng.one_in(4) => word & 0xFC00 | short & 0x03FF,
        "D" if !rng.one_in(4) => word & 0xF000 | short & 0x0FFF,
        _ => word,
    }
}

/// Constants into some registers and SP, then instructions, often a jump back at the end.
pub fn program(rng: &mut Rng, length: usize) -> Vec<u16> {
    let mut words = Vec::new();
    for _ in 0..rng.below(12) {
        let t = (rng.below(16) as u16) << 8;
        words.push(0x7000 | t | rng.word() & rng.pick(&[0x1F, 0xFF]));
        if rng.one_in(2) {
            words.push(0x8000 | t | rng.pick(&[0x00, 0x01, 0x7F, 0x80, 0xFF]));
        }
        if rng.one_in(6) {
            words.push(0xB007 | t >> 4);
        }
    }
    while words.len() < length {
        words.push(instruction(rng));
        if rng.one_in(12) {
            // a sum or a difference that may overflow, and a jump on V
            let (t, a) = (rng.below(16) as u16, rng.below(16) as u16);
            words.push(0x8000 | a << 8 | rng.pick(&[0x40, 0x7F, 0x80]));
            words.push(rng.pick(&[0x0000, 0x1000]) | t << 8 | a << 4 | rng.pick(&[a, t]));
            words.push(rng.pick(&[0xC004, 0xC009, 0xEC02]) | rng.word() & 0x00F0);
        }
    }
    words.truncate(length);
    if length > 0 && !rng.one_in(3) {
        let back = rng.below(length.min(512) as u64) as u16;
        words[length - 1] = 0xD000 | back.wrapping_neg() & 0x03FF;
    }
    words
}

/// The length of a memory; one of the largest in `seldom` times.
pub fn length(rng: &mut Rng, seldom: u64) -> usize {
    if rng.one_in(seldom) {
        return rng.pick(&[65_535, 65_536, 65_537]);
    }
    match rng.below(20) {
        0 => rng.up_to(1),
        1..=3 => 1 + rng.up_to(9),
        4..=17 => 10 + rng.up_to(300),
        _ => 300 + rng.up_to(700),
    }
}

/// Zeros, words, instructions, or a program with zeros or words behind it.
pub fn memory(rng: &mut Rng, length: usize) -> Vec<u16> {
    let kind = rng.below(6);
    let mut memory = vec![0; length];
    match kind {
        1 | 5 => memory.fill_with(|| rng.word()),
        2 => memory.fill_with(|| instruction(rng)),
        _ => {}
    }
    if kind >= 3 {
        let size = rng.up_to(length.min(80));
        memory[..size].copy_from_slice(&program(rng, size));
    }
    memory
}

/// A listing of a program, two times in three as it should be.
pub fn listing(rng: &mut Rng, length: usize, lines: usize) -> Vec<u8> {
    let mut text = Vec::new();
    let mut address = match rng.below(8) {
        0 => rng.up_to(length),
        1 => length.saturating_sub(rng.up_to(lines)),
        _ => 0,
    };
    let lower = rng.pick(&[u64::MAX, u64::MAX, 2, 1]); // digits in lower case: none, half, all
    for word in program(rng, lines) {
        if rng.one_in(15) {
            text.extend([&b"\n"[..], b" \n", b"    \n"][rng.up_to(2)]);
        }
        for mut byte in format!("{:04X} {word:04X}", address & 0xFFFF).into_bytes() {
            if rng.one_in(lower) {
                byte = byte.to_ascii_lowercase();
            }
            text.push(byte);
        }
        if rng.one_in(6) {
            text.resize(text.len() + rng.up_to(5), b' ');
        }
        if rng.one_in(6) {
            text.push(b';');
            for _ in 0..rng.below(12) {
                let any = rng.word() as u8;
                let byte = rng.pick(&[b'\r', b'\t', b' ', b';', b'a', any, any, any, any]);
                text.push(if byte == b'\n' { b'\r' } else { byte });
            }
        }
        text.push(b'\n');
        address += if rng.one_in(12) { rng.up_to(6) } else { 0 } + 1;
    }
    if rng.one_in(4) {
        text.pop();
    }
    for _ in 0..rng.pick(&[0, 0, 0, 0, 1, 2]) {
        damage(rng, &mut text);
    }
    text
}

fn damage(rng: &mut Rng, text: &mut Vec<u8>) {
    let place = rng.up_to(text.len());
    let next = text.len().min(place + 1);
    let is_end = |byte: &u8| *byte == b'\n';
    let start = text[..place]
        .iter()
        .rposition(is_end)
        .map_or(0, |at| at + 1);
    let end = text[place..]
        .iter()
        .position(is_end)
        .map_or(text.len(), |at| place + at);
    let digits = 1 + rng.up_to(3);
    let special = rng.pick(b" \t\r;\ngGfF09/:@`\x00\xB0\xFF");
    match rng.below(11) {
        0 => text[place..next].fill(rng.word() as u8),
        1 => text[place..next].fill(special),
        2 => text.insert(place, special),
        3 => text.truncate(place),
        4 => drop(text.drain(place..end)),
        5 => drop(text.drain(place..next)),
        6 => text.extend(text[start..end].to_vec()), // a line once more
        7 => text[start..end]
            .iter_mut()
            .take(digits)
            .for_each(|digit| *digit = b'F'),
        8 => *text = text.split(is_end).collect::<Vec<_>>().join(&b"\r\n"[..]),
        9 => {
            let line = rng.pick(&[&b";\n"[..], b" ;\n", b" ", b"\t\n", b"0\n"]);
            text.splice(start..start, line.iter().copied());
        }
        _ => *text = (0..rng.up_to(60)).map(|_| rng.word() as u8).collect(),
    }
}

/// A budget of any size, but no run longer than LONG.
pub fn budget(rng: &mut Rng, core: &Core, memory: &[u16]) -> u32 {
    let left = u32::MAX - core.clock;
    let b = match rng.below(20) {
        0..=7 => rng.below(6) as u32,
        8..=12 => rng.below(40) as u32,
        13..=15 => rng.below(400) as u32,
        16 => rng.below(LONG as u64) as u32,
        17 => u32::MAX,
        18 => left.saturating_add(rng.below(2) as u32),
        _ => rng.next() as u32,
    };
    if b <= LONG || b > left {
        return b;
    }
    match core.clone().run(LONG, &mut memory.to_vec()) {
        Answer::Ran {
            end: b'B' | b'M', ..
        } => rng.below(40) as u32,
        _ => b,
    }
}

/// Any core, also one that no call makes; addresses lie often in the memory or at its end.
pub fn core(rng: &mut Rng, length: usize) -> Core {
    let mut word = |near: u64| match rng.below(16) {
        0 => 0,
        1 => 0xFFFF,
        2 => length as u16,
        3 => (length as u16).wrapping_sub(1),
        n if n < 4 + near => rng.up_to(length) as u16,
        _ => rng.word(),
    };
    Core {
        r: std::array::from_fn(|_| word(5)),
        pc: word(11),
        sp: word(8),
        ra: word(5),
        rb: word(5),
        ralu: word(8),
        n: rng.one_in(2),
        z: rng.one_in(2),
        c: rng.one_in(2),
        v: rng.one_in(2),
        ir: instruction(rng),
        due: rng.pick(&[1, 1, 1, 2, 2, 2, 3, 3, 3, 3, 4, 4, 4, 4, 0, 5, 255]),
        stop: match rng.below(24) {
            0 => Stop::Halted,
            1 => Stop::Undefined,
            _ => Stop::Going,
        },
        clock: match rng.below(4) {
            0 => 0,
            1 => u32::MAX - rng.below(8) as u32,
            2 => u32::MAX - rng.below(500) as u32,
            _ => rng.next() as u32,
        },
    }
}
