//! A plain interpreter of the instructions that the loops of `bench/run machine` use, and of a few others (`and`, `cmp`, `imul` and
//! `jmp`), as one writes it in Rust: it decodes the code once, by the offset of each instruction, and then does one instruction
//! after the other. Nothing is proved of it. It is what the machine's speed is compared with.
//!
//! The code stands in hexadecimal in the first line of the input, and the most instructions are its first word. It writes the
//! integer in rdi where the code calls service 0.

use std::io::Read;

const CODE_BEGIN: u64 = 0x1_0000_0000;
const STACK_BEGIN: u64 = 0x4_0000_0000;
const STACK_WORDS: u64 = 1 << 20;
const HEAP_END: u64 = 0x6_0000_0000;
const HEAP_WORDS: u64 = 1 << 20;

#[derive(Clone, Copy)]
enum Operation {
    Add,
    And,
    Sub,
    Xor,
    Cmp,
}

#[derive(Clone, Copy)]
enum Instruction {
    Move(usize, usize),
    Load(usize, usize, i32),
    Store(usize, i32, usize),
    LoadConstant(usize, u64),
    Binary(Operation, usize, usize),
    BinaryConstant(Operation, usize, i32),
    Multiply(usize, usize),
    Call(i32),
    Jump(i32),
    JumpIf(u8, i32),
    Push(usize),
    Pop(usize),
    Return,
    Syscall,
}

#[derive(Default)]
struct Flags {
    carry: bool,
    zero: bool,
    sign: bool,
    overflow: bool,
}

fn number(bytes: &[u8]) -> i32 {
    i32::from_le_bytes([bytes[0], bytes[1], bytes[2], bytes[3]])
}

fn operation(opcode: u8) -> Option<Operation> {
    match opcode & 0x38 {
        0x00 => Some(Operation::Add),
        0x20 => Some(Operation::And),
        0x28 => Some(Operation::Sub),
        0x30 => Some(Operation::Xor),
        0x38 => Some(Operation::Cmp),
        _ => None,
    }
}

/// The instruction at the beginning of the bytes, and its length.
fn decode(code: &[u8]) -> Option<(Instruction, usize)> {
    let (rex, prefix) = match *code.first()? {
        b if b & 0xf0 == 0x40 => (b, 1),
        _ => (0, 0),
    };
    let opcode = *code.get(prefix)?;
    let rest = code.get(prefix + 1..)?;
    let high = |bit: u8| if rex & bit == 0 { 0 } else { 8 };
    let short = (opcode & 7) as usize + high(1);
    match opcode {
        0x50..=0x57 => return Some((Instruction::Push(short), prefix + 1)),
        0x58..=0x5f => return Some((Instruction::Pop(short), prefix + 1)),
        0xb8..=0xbf => {
            let value = u64::from_le_bytes(rest.get(..8)?.try_into().ok()?);
            return Some((Instruction::LoadConstant(short, value), prefix + 9));
        }
        0xc3 => return Some((Instruction::Return, prefix + 1)),
        0xe8 => return Some((Instruction::Call(number(rest.get(..4)?)), prefix + 5)),
        0xe9 => return Some((Instruction::Jump(number(rest.get(..4)?)), prefix + 5)),
        0x0f if *rest.first()? == 0x05 => return Some((Instruction::Syscall, prefix + 2)),
        0x0f if *rest.first()? & 0xf0 == 0x80 => {
            return Some((Instruction::JumpIf(rest[0] & 15, number(rest.get(1..5)?)), prefix + 6));
        }
        _ => {}
    }
    let (modrm, behind) = if opcode == 0x0f { (*rest.get(1)?, 2) } else { (*rest.first()?, 1) };
    let reg = (modrm >> 3 & 7) as usize + high(4);
    let rm = (modrm & 7) as usize + high(1);
    let mut length = prefix + 1 + behind;
    match opcode {
        0x89 if modrm >> 6 == 3 => Some((Instruction::Move(rm, reg), length)),
        0x89 | 0x8b => {
            length += usize::from(rm & 7 == 4);
            let offset = number(code.get(length..length + 4)?);
            let instruction = if opcode == 0x89 {
                Instruction::Store(rm, offset, reg)
            } else {
                Instruction::Load(reg, rm, offset)
            };
            Some((instruction, length + 4))
        }
        0x0f if rest[0] == 0xaf => Some((Instruction::Multiply(reg, rm), length)),
        0x81 => {
            let value = number(code.get(length..length + 4)?);
            Some((Instruction::BinaryConstant(operation(modrm & 0x38)?, rm, value), length + 4))
        }
        _ if opcode & 0xc7 == 0x01 => Some((Instruction::Binary(operation(opcode)?, rm, reg), length)),
        _ => None,
    }
}

struct Machine {
    at: u64,
    registers: [u64; 16],
    flags: Flags,
    stack: Vec<u64>,
    heap: Vec<u64>,
}

impl Machine {
    fn place(&mut self, address: u64) -> Option<&mut u64> {
        if address % 8 != 0 {
            return None;
        }
        let heap_begin = HEAP_END - 8 * HEAP_WORDS;
        if address >= heap_begin {
            self.heap.get_mut(((address - heap_begin) / 8) as usize)
        } else {
            self.stack.get_mut((address.checked_sub(STACK_BEGIN)? / 8) as usize)
        }
    }

    fn operate(&mut self, operation: Operation, to: usize, b: u64) {
        let a = self.registers[to];
        let (word, carry, overflow) = match operation {
            Operation::Add => (a.wrapping_add(b), a.checked_add(b).is_none(), (a as i64).checked_add(b as i64).is_none()),
            Operation::Sub | Operation::Cmp => (a.wrapping_sub(b), a < b, (a as i64).checked_sub(b as i64).is_none()),
            Operation::And => (a & b, false, false),
            Operation::Xor => (a ^ b, false, false),
        };
        self.flags = Flags { carry, zero: word == 0, sign: (word as i64) < 0, overflow };
        if !matches!(operation, Operation::Cmp) {
            self.registers[to] = word;
        }
    }

    fn holds(&self, condition: u8) -> bool {
        let f = &self.flags;
        let yes = match condition >> 1 {
            0 => f.overflow,
            1 => f.carry,
            2 => f.zero,
            3 => f.carry || f.zero,
            4 => f.sign,
            6 => f.sign != f.overflow,
            _ => f.zero || f.sign != f.overflow,
        };
        yes != (condition & 1 == 1)
    }

    fn push(&mut self, word: u64) -> Option<()> {
        let top = self.registers[4].wrapping_sub(8);
        *self.place(top)? = word;
        self.registers[4] = top;
        Some(())
    }

    fn pop(&mut self) -> Option<u64> {
        let top = self.registers[4];
        let word = *self.place(top)?;
        self.registers[4] = top.wrapping_add(8);
        Some(word)
    }

    /// Does an instruction: whether the run goes on, or `None` where there is no next state.
    fn step(&mut self, decoded: &[Option<(Instruction, u64)>]) -> Option<bool> {
        let (instruction, next) = (*decoded.get(self.at.checked_sub(CODE_BEGIN)? as usize)?)?;
        let mut target = next;
        match instruction {
            Instruction::Move(to, from) => self.registers[to] = self.registers[from],
            Instruction::Load(to, base, offset) => {
                let address = self.registers[base].wrapping_add(offset as i64 as u64);
                self.registers[to] = *self.place(address)?;
            }
            Instruction::Store(base, offset, from) => {
                let address = self.registers[base].wrapping_add(offset as i64 as u64);
                let word = self.registers[from];
                *self.place(address)? = word;
            }
            Instruction::LoadConstant(to, value) => self.registers[to] = value,
            Instruction::Binary(operation, to, from) => self.operate(operation, to, self.registers[from]),
            Instruction::BinaryConstant(operation, to, value) => self.operate(operation, to, value as i64 as u64),
            Instruction::Multiply(to, by) => self.registers[to] = self.registers[to].wrapping_mul(self.registers[by]),
            Instruction::Call(offset) => {
                self.push(next)?;
                target = next.wrapping_add(offset as i64 as u64);
            }
            Instruction::Jump(offset) => target = next.wrapping_add(offset as i64 as u64),
            Instruction::JumpIf(condition, offset) => {
                if self.holds(condition) {
                    target = next.wrapping_add(offset as i64 as u64);
                }
            }
            Instruction::Push(r) => self.push(self.registers[r])?,
            Instruction::Pop(r) => self.registers[r] = self.pop()?,
            Instruction::Return => target = self.pop()?,
            Instruction::Syscall => return Some(false),
        }
        self.at = target;
        Some(true)
    }
}

fn main() {
    let steps: u64 = std::env::args().nth(1).and_then(|word| word.parse().ok()).unwrap_or(1_000);
    let mut text = String::new();
    std::io::stdin().read_to_string(&mut text).expect("a text");
    let digits: Vec<u8> = text.lines().next().unwrap_or("").split(' ').next().unwrap_or("").bytes().collect();
    let code: Vec<u8> = digits
        .chunks(2)
        .map(|pair| u8::from_str_radix(std::str::from_utf8(pair).expect("digits"), 16).expect("digits"))
        .collect();
    let decoded: Vec<Option<(Instruction, u64)>> = (0..code.len())
        .map(|i| decode(&code[i..]).map(|(instruction, length)| (instruction, CODE_BEGIN + (i + length) as u64)))
        .collect();
    let mut machine = Machine {
        at: CODE_BEGIN,
        registers: [0; 16],
        flags: Flags::default(),
        stack: vec![0; STACK_WORDS as usize],
        heap: vec![0; HEAP_WORDS as usize],
    };
    machine.registers[4] = STACK_BEGIN + 8 * STACK_WORDS;
    machine.registers[15] = HEAP_END - 8 * HEAP_WORDS;
    for _ in 0..steps {
        match machine.step(&decoded) {
            Some(true) => {}
            Some(false) => return println!("value {}", (machine.registers[7] as i64) >> 4),
            None => return println!("fault {}", machine.at.wrapping_sub(CODE_BEGIN)),
        }
    }
    println!("steps spent");
}
