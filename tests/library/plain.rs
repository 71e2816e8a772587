//! A plain simulator of the R8 core, written from document 01 alone: one datapath cycle after the
//! other; and a plain writer of listings, from document 02, note 1.
#![allow(dead_code)] // each program uses a part of it

use Op::*;

/// The 40 instructions in the order of the table, then all undefined words.
#[rustfmt::skip]
#[derive(Clone, Copy, PartialEq, Eq, Debug)]
pub enum Op {
    Add, Sub, And, Or, Xor, Addi, Subi, Ldl, Ldh, Ld, St,
    Sl0, Sl1, Sr0, Sr1, Not, Nop, Halt, Ldsp, Rts, Pop, Push,
    Jmpr, Jmpnr, Jmpzr, Jmpcr, Jmpvr, Jmp, Jmpn, Jmpz, Jmpc, Jmpv, Jsrr, Jsr,
    Jmpd, Jmpnd, Jmpzd, Jmpcd, Jmpvd, Jsrd,
    Undefined,
}

/// Which instruction a word is.
#[rustfmt::skip]
pub fn decode(word: u16) -> Op {
    match word >> 12 {
        0x0 => Add, 0x1 => Sub, 0x2 => And, 0x3 => Or, 0x4 => Xor,
        0x5 => Addi, 0x6 => Subi, 0x7 => Ldl, 0x8 => Ldh, 0x9 => Ld, 0xA => St,
        0xB => match word & 15 {
            0x0 => Sl0, 0x1 => Sl1, 0x2 => Sr0, 0x3 => Sr1, 0x4 => Not, 0x5 => Nop,
            0x6 => Halt, 0x7 => Ldsp, 0x8 => Rts, 0x9 => Pop, 0xA => Push,
            _ => Undefined,
        },
        0xC => match word & 15 {
            0x0 => Jmpr, 0x1 => Jmpnr, 0x2 => Jmpzr, 0x3 => Jmpcr, 0x4 => Jmpvr,
            0x5 => Jmp, 0x6 => Jmpn, 0x7 => Jmpz, 0x8 => Jmpc, 0x9 => Jmpv,
            0xA => Jsrr, 0xB => Jsr,
            _ => Undefined,
        },
        0xD => Jmpd,
        0xE => match word >> 10 & 3 { 0 => Jmpnd, 1 => Jmpzd, 2 => Jmpcd, _ => Jmpvd },
        _ => Jsrd,
    }
}

#[derive(Clone, Copy, PartialEq, Eq, Debug)]
pub enum Stop {
    Going,
    Halted,
    Undefined,
}

#[derive(Clone, PartialEq, Eq, Debug)]
pub struct Core {
    pub r: [u16; 16],
    pub pc: u16,
    pub sp: u16,
    pub n: bool,
    pub z: bool,
    pub c: bool,
    pub v: bool,
    pub ir: u16,
    pub ra: u16,
    pub rb: u16,
    pub ralu: u16,
    pub due: u8,
    pub stop: Stop,
    pub clock: u32,
}

/// What a view shows: all but the hidden registers.
#[derive(Clone, PartialEq, Eq, Debug)]
pub struct View {
    pub r: [u16; 16],
    pub pc: u16,
    pub sp: u16,
    pub flags: u8,
    pub stop: Stop,
    pub due: u8,
    pub clock: u32,
}

#[derive(Clone, PartialEq, Eq, Debug)]
pub enum Answer {
    Done,
    Stored(usize),
    Ran {
        cycles: u32,
        instructions: u32,
        end: u8,
    },
    Viewed(View),
    Refused(u8),
    RefusedAt(u8, usize),
}

/// An address at or past the length reads 0000.
fn read(memory: &[u16], address: u16) -> u16 {
    memory.get(address as usize).copied().unwrap_or(0)
}

/// A write at or past the length is lost.
fn write(memory: &mut [u16], address: u16, word: u16) {
    if let Some(place) = memory.get_mut(address as usize) {
        *place = word;
    }
}

fn bad_length(memory: &[u16]) -> bool {
    memory.is_empty() || memory.len() > 65_536
}

impl Core {
    pub fn fresh() -> Core {
        Core {
            r: [0; 16],
            pc: 0,
            sp: 0,
            n: false,
            z: false,
            c: false,
            v: false,
            ir: 0,
            ra: 0,
            rb: 0,
            ralu: 0,
            due: 1,
            stop: Stop::Going,
            clock: 0,
        }
    }

    /// 8N+4Z+2C+V.
    pub fn flags(&self) -> u8 {
        (self.n as u8) << 3 | (self.z as u8) << 2 | (self.c as u8) << 1 | self.v as u8
    }

    /// Whether a jump is taken under the flags; true for all but the conditional jumps.
    pub fn taken(&self, op: Op) -> bool {
        match op {
            Jmpnr | Jmpn | Jmpnd => self.n,
            Jmpzr | Jmpz | Jmpzd => self.z,
            Jmpcr | Jmpc | Jmpcd => self.c,
            Jmpvr | Jmpv | Jmpvd => self.v,
            _ => true,
        }
    }

    /// Cycles of an instruction under the flags.
    fn cost(&self, op: Op) -> u8 {
        match op {
            Halt | Undefined => 2,
            Nop => 3,
            _ if !self.taken(op) => 3,
            _ => 4,
        }
    }

    /// One datapath cycle; true when it finishes an instruction.
    pub fn cycle(&mut self, memory: &mut [u16]) -> bool {
        self.clock += 1;
        if self.due == 1 {
            self.ir = read(memory, self.pc);
            self.pc = self.pc.wrapping_add(1);
            self.due = 2;
            return false;
        }
        let op = decode(self.ir);
        let cost = self.cost(op);
        match self.due {
            2 => self.fetch_operands(op),
            3 if cost >= 3 => self.compute(op),
            4 if cost >= 4 => self.write_back(op, memory),
            _ => {} // a word that should have ended before: only the clock moves
        }
        if cost <= self.due {
            self.due = 1;
            return true;
        }
        self.due += 1;
        false
    }

    fn t(&self) -> usize {
        (self.ir >> 8 & 15) as usize
    }

    /// Cycle 2.
    fn fetch_operands(&mut self, op: Op) {
        match op {
            Halt => self.stop = Stop::Halted,
            Undefined => self.stop = Stop::Undefined,
            _ => {
                self.ra = self.r[(self.ir >> 4 & 15) as usize];
                self.rb = match op {
                    Addi | Subi | Ldl | Ldh | Push => self.r[self.t()],
                    _ => self.r[(self.ir & 15) as usize],
                };
            }
        }
    }

    /// Cycle 3.
    fn compute(&mut self, op: Op) {
        let (ra, rb, k) = (self.ra, self.rb, self.ir & 0xFF);
        let d10 = ((self.ir << 6) as i16 >> 6) as u16;
        let d12 = ((self.ir << 4) as i16 >> 4) as u16;
        self.ralu = match op {
            Add => self.sum(ra, rb),
            Sub => self.difference(ra, rb),
            And => self.sign(ra & rb),
            Or => self.sign(ra | rb),
            Xor => self.sign(ra ^ rb),
            Addi => self.sum(rb, k),
            Subi => self.difference(rb, k),
            Ldl => rb & 0xFF00 | k,
            Ldh => k << 8 | rb & 0x00FF,
            Ld | St => ra.wrapping_add(rb),
            Sl0 => self.sign(ra << 1),
            Sl1 => self.sign(ra << 1 | 1),
            Sr0 => self.sign(ra >> 1),
            Sr1 => self.sign(ra >> 1 | 0x8000),
            Not => self.sign(!ra),
            Ldsp | Jmp | Jmpn | Jmpz | Jmpc | Jmpv | Jsr => ra,
            Rts | Pop => self.sp.wrapping_add(1),
            Push => rb,
            Jmpr | Jmpnr | Jmpzr | Jmpcr | Jmpvr | Jsrr => self.pc.wrapping_add(ra),
            Jmpd | Jmpnd | Jmpzd | Jmpcd | Jmpvd => self.pc.wrapping_add(d10),
            Jsrd => self.pc.wrapping_add(d12),
            Nop | Halt | Undefined => return,
        };
    }

    /// Cycle 4; jumps that are not taken do not come here.
    fn write_back(&mut self, op: Op, memory: &mut [u16]) {
        let (t, ralu) = (self.t(), self.ralu);
        match op {
            Add | Sub | And | Or | Xor | Addi | Subi | Ldl | Ldh => self.r[t] = ralu,
            Sl0 | Sl1 | Sr0 | Sr1 | Not => self.r[t] = ralu,
            Ld => self.r[t] = read(memory, ralu),
            St => write(memory, ralu, self.r[t]),
            Ldsp => self.sp = ralu,
            Push => self.push(self.rb, memory),
            Pop => {
                self.r[t] = read(memory, ralu);
                self.sp = ralu;
            }
            Rts => {
                self.pc = read(memory, ralu);
                self.sp = ralu;
            }
            Jsrr | Jsr | Jsrd => {
                self.push(self.pc, memory);
                self.pc = ralu;
            }
            Nop | Halt | Undefined => {}
            _ => self.pc = ralu, // the jumps
        }
    }

    fn push(&mut self, word: u16, memory: &mut [u16]) {
        write(memory, self.sp, word);
        self.sp = self.sp.wrapping_sub(1);
    }

    /// Sets N and Z.
    fn sign(&mut self, result: u16) -> u16 {
        self.n = result >> 15 == 1;
        self.z = result == 0;
        result
    }

    /// p + q with all four flags.
    fn sum(&mut self, p: u16, q: u16) -> u16 {
        let result = p.wrapping_add(q);
        self.c = p as u32 + q as u32 >= 65_536;
        self.v = p >> 15 == q >> 15 && result >> 15 != p >> 15;
        self.sign(result)
    }

    /// p - q with all four flags.
    fn difference(&mut self, p: u16, q: u16) -> u16 {
        let result = p.wrapping_sub(q);
        self.c = p >= q;
        self.v = p >> 15 != q >> 15 && result >> 15 != p >> 15;
        self.sign(result)
    }

    fn end(&self) -> u8 {
        match self.stop {
            Stop::Halted => b'H',
            Stop::Undefined => b'U',
            Stop::Going if self.due == 1 => b'B',
            Stop::Going => b'M',
        }
    }

    pub fn reset(&mut self) -> Answer {
        *self = Core::fresh();
        Answer::Done
    }

    /// Checks every line, then stores.
    pub fn load(&mut self, listing: &[u8], memory: &mut [u16]) -> Answer {
        if bad_length(memory) {
            return Answer::Refused(1);
        }
        if self.due != 1 {
            return Answer::Refused(7);
        }
        let mut words: Vec<(u16, u16)> = Vec::new();
        let mut start = 0;
        while start < listing.len() {
            let rest = &listing[start..];
            let line = rest.split(|&byte| byte == b'\n').next().unwrap_or(rest);
            match read_line(line) {
                Line::Blank => {}
                Line::Faulty => return Answer::RefusedAt(2, start),
                Line::Word(address, word) => {
                    if address as usize >= memory.len() {
                        return Answer::RefusedAt(4, start);
                    }
                    if words.last().is_some_and(|&(before, _)| address <= before) {
                        return Answer::RefusedAt(3, start);
                    }
                    words.push((address, word));
                }
            }
            start += line.len() + 1;
        }
        for &(address, word) in &words {
            memory[address as usize] = word;
        }
        Answer::Stored(words.len())
    }

    pub fn run(&mut self, b: u32, memory: &mut [u16]) -> Answer {
        self.run_seen(b, memory, |_| {})
    }

    /// A run that shows the core after each finished instruction.
    pub fn run_seen(&mut self, b: u32, memory: &mut [u16], mut seen: impl FnMut(&Core)) -> Answer {
        if bad_length(memory) {
            return Answer::Refused(1);
        }
        if self.stop != Stop::Going {
            return Answer::Refused(8);
        }
        if self.due < 1 || self.due > 4 {
            return Answer::Refused(7);
        }
        if self.clock.checked_add(b).is_none() {
            return Answer::Refused(9);
        }
        let (mut cycles, mut instructions) = (0, 0);
        while cycles < b && self.stop == Stop::Going {
            cycles += 1;
            if self.cycle(memory) {
                instructions += 1;
                seen(self);
            }
        }
        Answer::Ran {
            cycles,
            instructions,
            end: self.end(),
        }
    }

    pub fn step(&mut self, memory: &mut [u16]) -> Answer {
        self.step_seen(memory, |_| {})
    }

    /// A step that shows the core before the hidden registers become zero.
    pub fn step_seen(&mut self, memory: &mut [u16], mut seen: impl FnMut(&Core)) -> Answer {
        if bad_length(memory) {
            return Answer::Refused(1);
        }
        if self.stop != Stop::Going {
            return Answer::Refused(8);
        }
        if self.due != 1 {
            return Answer::Refused(7);
        }
        if self.clock.checked_add(4).is_none() {
            return Answer::Refused(9);
        }
        let mut cycles = 1;
        while !self.cycle(memory) {
            cycles += 1;
        }
        seen(self);
        (self.ir, self.ra, self.rb, self.ralu) = (0, 0, 0, 0);
        Answer::Ran {
            cycles,
            instructions: 1,
            end: self.end(),
        }
    }

    pub fn view(&self) -> Answer {
        if self.due != 1 {
            return Answer::Refused(7);
        }
        Answer::Viewed(View {
            r: self.r,
            pc: self.pc,
            sp: self.sp,
            flags: self.flags(),
            stop: self.stop,
            due: self.due,
            clock: self.clock,
        })
    }
}

enum Line {
    Blank,
    Word(u16, u16),
    Faulty,
}

/// A line without its LF: blank, or two fields of four digits, spaces and perhaps a comment.
fn read_line(line: &[u8]) -> Line {
    if line.iter().all(|&byte| byte == b' ') {
        return Line::Blank;
    }
    if line.len() < 9 || line[4] != b' ' {
        return Line::Faulty;
    }
    let (Some(address), Some(word)) = (four_digits(&line[..4]), four_digits(&line[5..9])) else {
        return Line::Faulty;
    };
    match line[9..].iter().find(|&&byte| byte != b' ') {
        None | Some(b';') => Line::Word(address, word),
        Some(_) => Line::Faulty,
    }
}

fn four_digits(digits: &[u8]) -> Option<u16> {
    let mut value = 0;
    for &digit in digits {
        value = value << 4 | char::from(digit).to_digit(16)? as u16;
    }
    Some(value)
}

/// Writes the words at `count` addresses from `first` on as listing lines: answers how many bytes
/// these are, or the number of a refusal.
pub fn write_listing(
    memory: &[u16],
    first: usize,
    count: usize,
    text: &mut [u8],
) -> Result<usize, u8> {
    if bad_length(memory) {
        return Err(1);
    }
    if first as u128 + count as u128 > memory.len() as u128 {
        return Err(4);
    }
    if text.len() < 10 * count {
        return Err(10);
    }
    for (line, address) in text.chunks_mut(10).zip(first..first + count) {
        line.copy_from_slice(format!("{address:04X} {:04X}\n", memory[address]).as_bytes());
    }
    Ok(10 * count)
}

/// What r8trace prints: a row for each finished instruction (address, word, cycles, flags after),
/// then the answer.
pub fn trace(listing: &[u8]) -> (Vec<[u64; 4]>, Answer) {
    let mut core = Core::fresh();
    let mut memory = vec![0; 16_384];
    let mut rows = Vec::new();
    let loaded = core.load(listing, &mut memory);
    if !matches!(loaded, Answer::Stored(_)) {
        return (rows, loaded);
    }
    let (mut cycles, mut start, mut address) = (0, 0, 0);
    while cycles < 1_000 && core.stop == Stop::Going {
        if core.due == 1 {
            (start, address) = (cycles, core.pc);
        }
        cycles += 1;
        if core.cycle(&mut memory) {
            let flags = core.flags() as u64;
            rows.push([
                address as u64,
                core.ir as u64,
                (cycles - start) as u64,
                flags,
            ]);
        }
    }
    let instructions = rows.len() as u32;
    (
        rows,
        Answer::Ran {
            cycles,
            instructions,
            end: core.end(),
        },
    )
}
