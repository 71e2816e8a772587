//! Listings out of memory: drawn, written on both sides, compared, loaded again, and what they met
//! counted.

use crate::draw::{self, Rng};
use crate::library::*;
use crate::plain::{write_listing, Answer, Core};
use crate::show::*;
use crate::MARK;

struct Listing {
    memory: Vec<u16>,
    first: usize,
    count: usize,
    room: usize, // bytes that the text can hold
    nulls: bool, // empty slices are null pointers
}

impl Listing {
    fn sum(&self) -> u128 {
        self.first as u128 + self.count as u128
    }

    fn needed(&self) -> u128 {
        self.count as u128 * 10
    }

    /// Which numbers apply: 1, 4, 10.
    fn wrong(&self) -> [bool; 3] {
        let length = self.memory.len();
        [
            length == 0 || length > 65_536,
            self.sum() > length as u128,
            (self.room as u128) < self.needed(),
        ]
    }

    fn written(&self) -> bool {
        self.wrong() == [false; 3]
    }

    /// Number 4, though the sum reduced to so many bits is in the memory; with 16 more it is whole.
    fn reduced(&self, bits: u32) -> bool {
        let (sum, length) = (self.sum(), self.memory.len() as u128);
        let refused = self.wrong()[..2] == [false, true];
        refused && sum >> bits > 0 && sum >> bits < 1 << 16 && sum % (1 << bits) <= length
    }
}

/// First address and count: in the memory, about its end, about 65,536, with a sum that is in the
/// memory once it is reduced to 16, 32 or 64 bits, or any.
fn draw_stretch(rng: &mut Rng, length: usize) -> (usize, usize) {
    let (inside, few) = (rng.up_to(length), rng.up_to(2));
    let about = rng.pick(&[65_535, 65_536, 65_537]);
    let one_off = rng.up_to(2);
    let near = |place: usize| (place + one_off).saturating_sub(1);
    match rng.below(14) {
        0..=5 => (inside, rng.up_to((length - inside).min(300))),
        6 => (inside, near(length - inside)),
        7 => (few, near(length.saturating_sub(few))),
        8 => (near(length), few),
        9 => (about, few),
        10 => (few, about),
        11 | 12 => {
            let (bits, times) = rng.pick(&[(16, 1 + few), (32, 1 + few), (64, 1)]);
            let sum = ((times as u128) << bits) + inside as u128;
            let most = usize::MAX as u128;
            let part = match rng.below(4) {
                0 => few as u128,
                1 => inside as u128,
                2 => sum / 2,
                _ => rng.next() as u128 % sum,
            };
            let part = part.clamp(sum.saturating_sub(most), sum.min(most));
            let (one, other) = (part as usize, (sum - part) as usize);
            rng.pick(&[(one, other), (other, one)])
        }
        _ => {
            let mut any = || rng.next() as usize >> rng.pick(&[0, 0, 1, 16, 32, 48, 56]);
            (any(), any())
        }
    }
}

fn draw_listing(rng: &mut Rng) -> Listing {
    let length = draw::length(rng, 40);
    let (first, count) = draw_stretch(rng, length);
    let needed = count.min(length + 2) * LINE; // more words are past the end
    let room = match rng.below(8) {
        0..=2 => needed,
        3 => needed.saturating_sub(1),
        4 => rng.up_to(needed),
        5 => 0,
        _ => needed + 1 + rng.up_to(30),
    };
    Listing {
        memory: draw::memory(rng, length),
        first,
        count,
        room,
        nulls: rng.one_in(2),
    }
}

/// Writes on both sides into equal bytes, which no line has, with a line's room before the text and
/// after it; and loads what was written.
fn compare_listing(case: &Listing, rng: &mut Rng) -> Result<(), String> {
    let (first, count, room) = (case.first, case.count, case.room);
    let mut want = vec![0; LINE + room + LINE];
    want.fill_with(|| rng.word() as u8 | 0x80);
    let (mut got, mut memory) = (want.clone(), case.memory.clone());
    let (start, end) = (LINE, LINE + room);
    let code = match write_listing(&memory, first, count, &mut want[start..end]) {
        Ok(_) => OK,
        Err(number) => number as u32,
    };
    let got_code = listing(&mut memory, first, count, &mut got[start..end], case.nulls);
    same("return code", &[got_code], &[code])?;
    same_text(&got[start..end], &want[start..end])?;
    same("before the text, byte", &got[..start], &want[..start])?;
    same("past the text, byte", &got[end..], &want[end..])?;
    same("memory", &memory, &case.memory)?;
    match code {
        OK => load_again(case, &got[start..][..count * LINE], rng),
        _ => Ok(()),
    }
}

/// The written lines give the same words at those addresses of another memory, and change no others.
fn load_again(case: &Listing, lines: &[u8], rng: &mut Rng) -> Result<(), String> {
    let mut memory = vec![0; case.memory.len()];
    memory.fill_with(|| rng.word());
    let mut want = memory.clone();
    let stretch = case.first..case.first + case.count;
    want[stretch.clone()].copy_from_slice(&case.memory[stretch]);
    let (mut answers, mut at) = ([MARK; 2 * ANSWER], MARK);
    let calls = [LOAD, 0, lines.len() as u64];
    let code = replay(&calls, lines, &mut memory, &mut answers, &mut at) as u64;
    same("loaded: return code, *at", &[code, at], &[OK as u64, 1])?;
    let stored = answer_of(&Answer::Stored(case.count));
    same_answers(&answers, &[stored, left_of(&Core::fresh())].concat(), 2)?;
    same("loaded: memory", &memory, &want)
}

fn check_listing(case: &Listing, rng: &mut Rng, met: &mut Met) -> Result<(), String> {
    met.note(case);
    compare_listing(case, rng).map_err(|what| {
        let (first, count, room) = (case.first, case.count, case.room);
        let nulls = if case.nulls { ", null if empty" } else { "" };
        format!(
            "first {first}, count {count}, text of {room} bytes{nulls}: {what}\n  {}",
            show_memory(&case.memory)
        )
    })
}

/// h. A random one.
pub fn check_drawn_listing(rng: &mut Rng, met: &mut Met) -> Result<(), String> {
    check_listing(&draw_listing(rng), rng, met)
}

/// Words at their addresses; all others are 5AFE.
const WORDS: [(usize, u16); 10] = [
    (0x0000, 0x7105),
    (0x0001, 0xB006),
    (0x0002, 0x4567),
    (0x0009, 0x0000),
    (0x00AF, 0x00FF),
    (0x0FFE, 0xDEAD),
    (0x0FFF, 0x0EEF),
    (0x1000, 0x1238),
    (0xABCD, 0x9ABC),
    (0xFFFF, 0xFFFF),
];

/// Length, first, count, bytes of the text; what is returned, and what is written.
#[rustfmt::skip]
const ROWS: [(usize, usize, usize, usize, u32, &str); 22] = [
    (65_536, 0x0009, 1, 10, OK, "0009 0000\n"),
    (65_536, 0x00AF, 1, 11, OK, "00AF 00FF\n"),
    (65_536, 0xABCD, 1, 10, OK, "ABCD 9ABC\n"),
    (65_536, 0xFFFF, 1, 25, OK, "FFFF FFFF\n"),
    (65_536, 0x0FFE, 3, 30, OK, "0FFE DEAD\n0FFF 0EEF\n1000 1238\n"),
    (65_535, 0xFFFD, 2, 20, OK, "FFFD 5AFE\nFFFE 5AFE\n"),
    (4, 0, 4, 45, OK, "0000 7105\n0001 B006\n0002 4567\n0003 5AFE\n"),
    (4, 1, 2, 29, OK, "0001 B006\n0002 4567\n"),
    (1, 0, 1, 10, OK, "0000 7105\n"),
    (1, 1, 0, 10, OK, ""),
    (65_536, 65_536, 0, 0, OK, ""),
    (0, 0, 0, 10, WRONG_LENGTH, ""),
    (0, 1, 1, 0, WRONG_LENGTH, ""),
    (65_537, 0, 1, 10, WRONG_LENGTH, ""),
    (65_537, 65_537, 1, 9, WRONG_LENGTH, ""),
    (4, 4, 1, 10, PAST_END, ""),
    (4, 5, 0, 10, PAST_END, ""),
    (4, 2, 3, 29, PAST_END, ""),
    (4, usize::MAX, 2, 20, PAST_END, ""),
    (65_536, 1, 65_536, 655_360, PAST_END, ""),
    (4, 2, 2, 19, SHORT_TEXT, ""),
    (4, 0, 1, 0, SHORT_TEXT, ""),
];

/// g. The rows on both sides; then whole memories, one of them with each word once.
pub fn check_rows(met: &mut Met) -> Result<String, String> {
    let mut memory = vec![MARK as u16; 65_537];
    for (address, word) in WORDS {
        memory[address] = word;
    }
    for (length, first, count, room, code, lines) in ROWS {
        let mut text = vec![b'?'; room];
        let written = write_listing(&memory[..length], first, count, &mut text);
        let mut want = vec![b'?'; room];
        want[..lines.len()].copy_from_slice(lines.as_bytes());
        let as_said = match code {
            OK => written == Ok(lines.len()),
            _ => written == Err(code as u8),
        };
        if !as_said || text != want {
            let text = text[..room.min(50)].escape_ascii();
            return Err(format!(
                "the plain writer: {length} words, first {first}, count {count}: {written:?} and \"{text}\""
            ));
        }
        for nulls in [false, true] {
            let row = Listing {
                memory: memory[..length].to_vec(),
                first,
                count,
                room,
                nulls,
            };
            check_listing(&row, &mut Rng(0), met)?;
        }
    }
    let every_word = (0..=0xFFFF).map(|word: u16| word.wrapping_mul(40_503));
    for (length, room) in [(65_536, 655_360), (65_536, 655_359), (65_535, 655_350)] {
        let whole = Listing {
            memory: every_word.clone().take(length).collect(),
            first: 0,
            count: length,
            room,
            nulls: false,
        };
        check_listing(&whole, &mut Rng(0), met)?;
    }
    Ok(format!("{} rows and 65536 words", ROWS.len()))
}

type Corner = (&'static str, fn(&Listing) -> bool);

#[rustfmt::skip]
const CORNERS: [Corner; 44] = [
    ("returned 0", |l| l.written()),
    ("returned 1", |l| l.wrong() == [true, false, false]),
    ("returned 1 where 4 applies too", |l| l.wrong() == [true, true, false]),
    ("returned 1 where 10 applies too", |l| l.wrong() == [true, false, true]),
    ("returned 1 where both apply too", |l| l.wrong() == [true, true, true]),
    ("returned 4", |l| l.wrong() == [false, true, false]),
    ("returned 4 where 10 applies too", |l| l.wrong() == [false, true, true]),
    ("returned 10", |l| l.wrong() == [false, false, true]),
    ("no words", |l| l.memory.is_empty() && !l.nulls),
    ("no words, null", |l| l.memory.is_empty() && l.nulls),
    ("1 word, written", |l| l.memory.len() == 1 && l.count == 1 && l.written()),
    ("65535 words, some written", |l| l.memory.len() == 65_535 && l.count > 0 && l.written()),
    ("65536 words, some written", |l| l.memory.len() == 65_536 && l.count > 0 && l.written()),
    ("65537 words", |l| l.memory.len() == 65_537),
    ("count 0 in the memory", |l| l.count == 0 && l.first < l.memory.len() && l.written()),
    ("count 0 at the end", |l| l.count == 0 && l.first == l.memory.len() && l.written()),
    ("count 0 one past the end", |l| l.count == 0 && l.first == l.memory.len() + 1 && !l.wrong()[0]),
    ("up to one below the end", |l| l.count > 0 && l.sum() + 1 == l.memory.len() as u128 && l.written()),
    ("up to the end", |l| l.count > 0 && l.sum() == l.memory.len() as u128 && l.written()),
    ("up to one past the end", |l| l.first < l.memory.len() && l.sum() == l.memory.len() as u128 + 1 && !l.wrong()[0]),
    ("from the end on", |l| l.count > 0 && l.first == l.memory.len() && !l.wrong()[0]),
    ("first 65535, written", |l| l.first == 65_535 && l.count == 1 && l.written()),
    ("first 65535, refused with 4", |l| l.first == 65_535 && l.wrong()[..2] == [false, true]),
    ("first 65536, taken", |l| l.first == 65_536 && l.written()),
    ("first 65536, refused with 4", |l| l.first == 65_536 && l.wrong()[..2] == [false, true]),
    ("first 65537, refused with 4", |l| l.first == 65_537 && l.wrong()[..2] == [false, true]),
    ("count 65535, written", |l| l.count == 65_535 && l.written()),
    ("count 65535, refused with 4", |l| l.count == 65_535 && l.wrong()[..2] == [false, true]),
    ("count 65536, written", |l| l.count == 65_536 && l.written()),
    ("count 65536, refused with 4", |l| l.count == 65_536 && l.wrong()[..2] == [false, true]),
    ("count 65537, refused with 4", |l| l.count == 65_537 && l.wrong()[..2] == [false, true]),
    ("sum in the memory by 16 bits", |l| l.reduced(16)),
    ("sum in the memory by 32 bits", |l| l.reduced(32)),
    ("sum in the memory by 64 bits", |l| l.reduced(64)),
    ("sum of any size past 64 bits", |l| l.sum() >> 64 > 0 && !l.reduced(64) && !l.wrong()[0]),
    ("text just enough", |l| l.count > 0 && l.room as u128 == l.needed() && l.written()),
    ("text one byte short", |l| l.room as u128 + 1 == l.needed() && l.wrong() == [false, false, true]),
    ("text longer", |l| l.count > 0 && l.room as u128 > l.needed() && l.written()),
    ("text longer, count 0", |l| l.count == 0 && l.room > 0 && l.written()),
    ("text empty, count 0", |l| l.room == 0 && !l.nulls && l.written()),
    ("text empty, refused with 10", |l| l.room == 0 && !l.nulls && l.wrong() == [false, false, true]),
    ("text null, count 0", |l| l.room == 0 && l.nulls && l.written()),
    ("text null, refused with 4", |l| l.room == 0 && l.nulls && l.wrong()[..2] == [false, true]),
    ("text null, refused with 10", |l| l.room == 0 && l.nulls && l.wrong() == [false, false, true]),
];

/// How many listings were at each corner.
pub struct Met([u64; CORNERS.len()]);

impl Met {
    pub fn new() -> Met {
        Met([0; CORNERS.len()])
    }

    fn note(&mut self, case: &Listing) {
        for (count, (_, is_at)) in self.0.iter_mut().zip(CORNERS) {
            *count += is_at(case) as u64;
        }
    }

    /// i. Prints the counts; all must be above 0.
    pub fn outcome(&self) -> Result<String, String> {
        let mut missing = Vec::new();
        for (count, (name, _)) in self.0.iter().zip(CORNERS) {
            println!("   {name:31} {count}");
            if *count == 0 {
                missing.push(name);
            }
        }
        match missing.is_empty() {
            true => Ok("each of them was met".to_string()),
            false => Err(format!("never met: {}", missing.join(", "))),
        }
    }
}
