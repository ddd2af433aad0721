//! A plain interpreter of RV64IM, against which the benchmark compares the product: pages in an ordered
//! map, and a match on the opcode. With `remembered` in front of the file the map leads to places in a list
//! of pages, and the places of the last pages used are tried first, as in the product. It is written once,
//! and doesn't follow the product's changes.
//!
//! `interpreter [remembered] FILE` runs a file whose one segment is the whole file at 0x10000 with its code at 0x10078,
//! with 1 MiB of stack, and prints the number of instructions, the seconds that they took, and the exit code.

use std::collections::BTreeMap;
use std::time::Instant;

const PAGE: u64 = 4096;
const STACK_TOP: u64 = 0x3F_FFFF_F000;

struct Page {
    bytes: [u8; PAGE as usize],
    read: bool,
    write: bool,
    execute: bool,
}

#[derive(Clone, Copy)]
enum Access {
    Read,
    Write,
    Execute,
}

impl Page {
    fn allows(&self, access: Access) -> bool {
        match access {
            Access::Read => self.read,
            Access::Write => self.write,
            Access::Execute => self.execute,
        }
    }
}

enum Stop {
    Call,
    Killed(u8),
}

trait Memory {
    fn put(&mut self, number: u64, page: Page);
    fn get(&mut self, number: u64, access: Access) -> Option<&mut Page>;
}

#[derive(Default)]
struct Mapped {
    pages: BTreeMap<u64, Box<Page>>,
}

impl Memory for Mapped {
    fn put(&mut self, number: u64, page: Page) {
        self.pages.insert(number, Box::new(page));
    }

    fn get(&mut self, number: u64, access: Access) -> Option<&mut Page> {
        let page = self.pages.get_mut(&number)?;
        page.allows(access).then_some(page)
    }
}

const RECENT: u64 = 8;

#[derive(Default)]
struct Remembered {
    places: BTreeMap<u64, usize>,
    pages: Vec<(u64, Box<Page>)>,
    fetched: usize,
    recent: [usize; RECENT as usize],
}

impl Remembered {
    fn remembered(&mut self, number: u64, access: Access) -> &mut usize {
        match access {
            Access::Execute => &mut self.fetched,
            _ => &mut self.recent[(number % RECENT) as usize],
        }
    }

    fn place(&mut self, number: u64, access: Access) -> Option<usize> {
        let place = *self.remembered(number, access);
        if self.pages.get(place).is_some_and(|(found, _)| *found == number) {
            return Some(place);
        }
        let place = *self.places.get(&number)?;
        *self.remembered(number, access) = place;
        Some(place)
    }
}

impl Memory for Remembered {
    fn put(&mut self, number: u64, page: Page) {
        self.places.insert(number, self.pages.len());
        self.pages.push((number, Box::new(page)));
    }

    fn get(&mut self, number: u64, access: Access) -> Option<&mut Page> {
        let place = self.place(number, access)?;
        let page = &mut self.pages[place].1;
        page.allows(access).then_some(page)
    }
}

struct Machine<M> {
    pages: M,
    x: [u64; 32],
    pc: u64,
}

fn signed(word: u32, high: u32, low: u32) -> u64 {
    (((word << (31 - high)) as i32) >> (31 - high + low)) as i64 as u64
}

fn bits(word: u32, high: u32, low: u32) -> u32 {
    (word << (31 - high)) >> (31 - high + low)
}

fn word_of(value: u32) -> u64 {
    value as i32 as i64 as u64
}

impl<M: Memory + Default> Machine<M> {
    fn load(file: &[u8]) -> Machine<M> {
        let mut pages = M::default();
        for number in STACK_TOP / PAGE - 256..STACK_TOP / PAGE {
            let bytes = [0; PAGE as usize];
            pages.put(number, Page { bytes, read: true, write: true, execute: false });
        }
        for (k, part) in file.chunks(PAGE as usize).enumerate() {
            let mut bytes = [0; PAGE as usize];
            bytes[..part.len()].copy_from_slice(part);
            let page = Page { bytes, read: true, write: false, execute: true };
            pages.put(16 + k as u64, page);
        }
        let mut x = [0; 32];
        x[2] = STACK_TOP - 0x1100;
        Machine { pages, x, pc: 0x10078 }
    }

    fn read<const N: usize>(&mut self, at: u64, access: Access) -> Option<[u8; N]> {
        let offset = (at % PAGE) as usize;
        let page = self.pages.get(at / PAGE, access)?;
        if let Some(bytes) = page.bytes.get(offset..offset + N) {
            return bytes.try_into().ok();
        }
        let mut bytes = [0; N];
        for (k, byte) in bytes.iter_mut().enumerate() {
            let place = at.checked_add(k as u64)?;
            let page = self.pages.get(place / PAGE, access)?;
            *byte = page.bytes[(place % PAGE) as usize];
        }
        Some(bytes)
    }

    fn write(&mut self, at: u64, bytes: &[u8]) -> Option<()> {
        for k in 0..bytes.len() as u64 {
            let number = at.checked_add(k)? / PAGE;
            self.pages.get(number, Access::Write)?;
        }
        for (k, byte) in bytes.iter().enumerate() {
            let place = at + k as u64;
            self.pages.get(place / PAGE, Access::Write)?.bytes[(place % PAGE) as usize] = *byte;
        }
        Some(())
    }

    fn set(&mut self, r: u32, value: u64) {
        if r != 0 {
            self.x[r as usize] = value;
        }
    }

    fn jump(&mut self, rd: u32, target: u64) -> Result<(), Stop> {
        if target % 4 != 0 {
            return Err(Stop::Killed(7));
        }
        self.set(rd, self.pc.wrapping_add(4));
        self.pc = target;
        Ok(())
    }

    fn load_value(&mut self, kind: u32, at: u64) -> Result<u64, Stop> {
        const BAD: Stop = Stop::Killed(11);
        Ok(match kind {
            0 => self.read::<1>(at, Access::Read).ok_or(BAD)?[0] as i8 as u64,
            1 => i16::from_le_bytes(self.read(at, Access::Read).ok_or(BAD)?) as u64,
            2 => i32::from_le_bytes(self.read(at, Access::Read).ok_or(BAD)?) as u64,
            3 => u64::from_le_bytes(self.read(at, Access::Read).ok_or(BAD)?),
            4 => self.read::<1>(at, Access::Read).ok_or(BAD)?[0].into(),
            5 => u16::from_le_bytes(self.read(at, Access::Read).ok_or(BAD)?).into(),
            6 => u32::from_le_bytes(self.read(at, Access::Read).ok_or(BAD)?).into(),
            _ => return Err(Stop::Killed(4)),
        })
    }

    fn arithmetic(kind: u32, funct7: u32, a: u64, b: u64) -> Result<u64, Stop> {
        Ok(match (funct7, kind) {
            (0, 0) => a.wrapping_add(b),
            (32, 0) => a.wrapping_sub(b),
            (0, 1) => a << (b % 64),
            (0, 2) => ((a as i64) < b as i64).into(),
            (0, 3) => (a < b).into(),
            (0, 4) => a ^ b,
            (0, 5) => a >> (b % 64),
            (32, 5) => (a as i64 >> (b % 64)) as u64,
            (0, 6) => a | b,
            (0, 7) => a & b,
            (1, 0) => a.wrapping_mul(b),
            (1, 1) => ((a as i64 as i128 * b as i64 as i128) >> 64) as u64,
            (1, 2) => ((a as i64 as i128 * b as i128) >> 64) as u64,
            (1, 3) => ((a as u128 * b as u128) >> 64) as u64,
            (1, 4) if b == 0 => u64::MAX,
            (1, 4) => (a as i64).wrapping_div(b as i64) as u64,
            (1, 5) => a.checked_div(b).unwrap_or(u64::MAX),
            (1, 6) if b == 0 => a,
            (1, 6) => (a as i64).wrapping_rem(b as i64) as u64,
            (1, 7) => a.checked_rem(b).unwrap_or(a),
            _ => return Err(Stop::Killed(4)),
        })
    }

    fn word_arithmetic(kind: u32, funct7: u32, a: u32, b: u32) -> Result<u64, Stop> {
        Ok(word_of(match (funct7, kind) {
            (0, 0) => a.wrapping_add(b),
            (32, 0) => a.wrapping_sub(b),
            (0, 1) => a << (b % 32),
            (0, 5) => a >> (b % 32),
            (32, 5) => (a as i32 >> (b % 32)) as u32,
            (1, 0) => a.wrapping_mul(b),
            (1, 4) if b == 0 => u32::MAX,
            (1, 4) => (a as i32).wrapping_div(b as i32) as u32,
            (1, 5) => a.checked_div(b).unwrap_or(u32::MAX),
            (1, 6) if b == 0 => a,
            (1, 6) => (a as i32).wrapping_rem(b as i32) as u32,
            (1, 7) => a.checked_rem(b).unwrap_or(a),
            _ => return Err(Stop::Killed(4)),
        }))
    }

    fn step(&mut self) -> Result<(), Stop> {
        if self.pc % 4 != 0 {
            return Err(Stop::Killed(7));
        }
        let word = self.read(self.pc, Access::Execute).ok_or(Stop::Killed(11))?;
        let word = u32::from_le_bytes(word);
        let (rd, kind, funct7) = (bits(word, 11, 7), bits(word, 14, 12), bits(word, 31, 25));
        let a = self.x[bits(word, 19, 15) as usize];
        let b = self.x[bits(word, 24, 20) as usize];
        let imm = signed(word, 31, 20);
        match word & 0x7f {
            0x03 => {
                let value = self.load_value(kind, a.wrapping_add(imm))?;
                self.set(rd, value);
            }
            0x0f if kind == 0 => {}
            0x13 => {
                let funct7 = match kind {
                    1 if bits(word, 31, 26) == 0 => 0,
                    5 if bits(word, 31, 26) == 0 => 0,
                    5 if bits(word, 31, 26) == 16 => 32,
                    1 | 5 => return Err(Stop::Killed(4)),
                    _ => 0,
                };
                let value = Self::arithmetic(kind, funct7, a, imm)?;
                self.set(rd, value);
            }
            0x17 => self.set(rd, self.pc.wrapping_add(word_of(word & !0xfff))),
            0x1b => {
                let funct7 = if kind == 0 { 0 } else { funct7 };
                if kind != 0 && funct7 & !32 != 0 {
                    return Err(Stop::Killed(4));
                }
                let value = Self::word_arithmetic(kind, funct7, a as u32, imm as u32)?;
                self.set(rd, value);
            }
            0x23 => {
                let at = a.wrapping_add(signed(word, 31, 25) << 5 | u64::from(rd));
                let bytes = b.to_le_bytes();
                let count = match kind {
                    0..=3 => 1 << kind,
                    _ => return Err(Stop::Killed(4)),
                };
                self.write(at, &bytes[..count]).ok_or(Stop::Killed(11))?;
            }
            0x33 => {
                let value = Self::arithmetic(kind, funct7, a, b)?;
                self.set(rd, value);
            }
            0x37 => self.set(rd, word_of(word & !0xfff)),
            0x3b => {
                let value = Self::word_arithmetic(kind, funct7, a as u32, b as u32)?;
                self.set(rd, value);
            }
            0x63 => {
                let taken = match kind {
                    0 => a == b,
                    1 => a != b,
                    4 => (a as i64) < b as i64,
                    5 => a as i64 >= b as i64,
                    6 => a < b,
                    7 => a >= b,
                    _ => return Err(Stop::Killed(4)),
                };
                if taken {
                    let imm = signed(word, 31, 31) << 12
                        | u64::from(bits(word, 7, 7) << 11)
                        | u64::from(bits(word, 30, 25) << 5)
                        | u64::from(bits(word, 11, 8) << 1);
                    let target = self.pc.wrapping_add(imm);
                    if target % 4 != 0 {
                        return Err(Stop::Killed(7));
                    }
                    self.pc = target;
                    return Ok(());
                }
            }
            0x67 if kind == 0 => return self.jump(rd, a.wrapping_add(imm) & !1),
            0x6f => {
                let imm = signed(word, 31, 31) << 20
                    | u64::from(bits(word, 19, 12) << 12)
                    | u64::from(bits(word, 20, 20) << 11)
                    | u64::from(bits(word, 30, 21) << 1);
                return self.jump(rd, self.pc.wrapping_add(imm));
            }
            0x73 if word == 0x73 => return Err(Stop::Call),
            0x73 if word == 0x10_0073 => return Err(Stop::Killed(5)),
            _ => return Err(Stop::Killed(4)),
        }
        self.pc = self.pc.wrapping_add(4);
        Ok(())
    }
}

fn run<M: Memory + Default>(file: &[u8]) {
    let mut machine = Machine::<M>::load(file);
    let start = Instant::now();
    let mut count = 0u64;
    let status = loop {
        count += 1;
        match machine.step() {
            Ok(()) => {}
            Err(Stop::Call) if machine.x[17] == 93 => break machine.x[10] as u8,
            Err(Stop::Call) => panic!("the loop makes no call but exit"),
            Err(Stop::Killed(signal)) => break 128 + signal,
        }
    };
    println!("{count} {:.6} {status}", start.elapsed().as_secs_f64());
}

fn main() {
    let words: Vec<String> = std::env::args().skip(1).collect();
    let file = std::fs::read(words.last().expect("interpreter [remembered] FILE")).expect("the file can be read");
    match words.len() {
        1 => run::<Mapped>(&file),
        _ => run::<Remembered>(&file),
    }
}
