// A plain interpreter of listings, as a yardstick for `towerc run`: yardstick LISTING TICKS SOURCE..
//
// Each SOURCE is the kind of a task, in their order: `init`, or the MS of a period. The tasks run over so many ticks by
// fixed priorities. It writes a line for each mark, as `towerc run` does but with the numbers of tasks and outputs in
// place of names, and at the end the number of instructions. It looks for faults of a listing no further than it must.

use std::collections::VecDeque;
use std::io::{self, BufWriter, Write};
use std::{env, fs};

type Word = i128;

#[derive(Clone, Copy)]
enum Scalar {
    Signed(u32),
    Unsigned(u32),
    Index(Word),
    Bool,
}

#[derive(Clone, Copy)]
enum Op {
    Add,
    Sub,
    Mul,
    Div,
    Rem,
    And,
    Or,
    Xor,
    Eq,
    Lt,
    Le,
    Not,
    Neg,
}

#[derive(Clone, Copy)]
enum Instr {
    Push(Word),
    Drop,
    Dup,
    Ld(usize),
    St(usize),
    Ldx(usize),
    Stx(usize),
    Ldm(usize, usize),
    Stm(usize, usize),
    Un(Op, Scalar),
    Bin(Op, Scalar),
    Cast(Scalar),
    Jmp(usize),
    Jz(usize),
    Call(usize),
    Ret,
    Take(usize),
    Lock(usize),
    Unlock(usize),
    Out(usize, usize),
    Bclr(usize),
    Bput(usize),
    Badd(usize),
    Bget(usize),
    Bcnt(usize),
}

struct Buffer {
    width: usize,
    count: usize,
    words: Vec<Word>,
}

struct Task {
    priority: usize,
    message: usize,
    code: Vec<Instr>,
    place: usize,
    words: Vec<Word>,
    stack: Vec<Word>,
    calls: Vec<usize>,
    buffers: Vec<Buffer>,
    queue: VecDeque<Word>,
}

struct Monitor {
    words: Vec<Word>,
    is_held: bool,
}

struct Machine {
    monitors: Vec<Monitor>,
    outputs: Vec<usize>,
    tasks: Vec<Task>,
    count: u64,
}

// ---- a listing

fn scalar(word: &str) -> Scalar {
    match word.split_at(1) {
        ("b", _) => Scalar::Bool,
        ("i", n) if n.starts_with("x:") => Scalar::Index(n[2..].parse().unwrap()),
        ("i", n) => Scalar::Signed(n.parse().unwrap()),
        (_, n) => Scalar::Unsigned(n.parse().unwrap()),
    }
}

fn op(word: &str) -> Op {
    match word {
        "+" => Op::Add,
        "-" => Op::Sub,
        "*" => Op::Mul,
        "/" => Op::Div,
        "%" => Op::Rem,
        "&" | "and" => Op::And,
        "|" | "or" => Op::Or,
        "^" => Op::Xor,
        "=" => Op::Eq,
        "<" => Op::Lt,
        "<=" => Op::Le,
        "not" => Op::Not,
        "neg" => Op::Neg,
        _ => panic!("no operation: {}", word),
    }
}

fn instr(line: &str) -> Instr {
    let w: Vec<&str> = line.split(' ').collect();
    let n = |i: usize| -> usize { w[i].parse().unwrap() };
    match w[0] {
        "PUSH" => Instr::Push(w[1].parse().unwrap()),
        "DROP" => Instr::Drop,
        "DUP" => Instr::Dup,
        "LD" => Instr::Ld(n(1)),
        "ST" => Instr::St(n(1)),
        "LDX" => Instr::Ldx(n(1)),
        "STX" => Instr::Stx(n(1)),
        "LDM" => Instr::Ldm(n(1), n(2)),
        "STM" => Instr::Stm(n(1), n(2)),
        "UN" => Instr::Un(op(w[1]), scalar(w[2])),
        "BIN" => Instr::Bin(op(w[1]), scalar(w[2])),
        "CAST" => Instr::Cast(scalar(w[1])),
        "JMP" => Instr::Jmp(n(1)),
        "JZ" => Instr::Jz(n(1)),
        "CALL" => Instr::Call(n(1)),
        "RET" => Instr::Ret,
        "TAKE" => Instr::Take(n(1)),
        "LOCK" => Instr::Lock(n(1)),
        "UNLOCK" => Instr::Unlock(n(1)),
        "OUT" => Instr::Out(n(1), n(2)),
        "BCLR" => Instr::Bclr(n(1)),
        "BPUT" => Instr::Bput(n(1)),
        "BADD" => Instr::Badd(n(1)),
        "BGET" => Instr::Bget(n(1)),
        "BCNT" => Instr::Bcnt(n(1)),
        _ => panic!("no instruction: {}", line),
    }
}

fn numbers<'a>(lines: &mut impl Iterator<Item = &'a str>) -> Vec<usize> {
    lines.next().unwrap().split(' ').skip(1).map(|w| w.parse().unwrap()).collect()
}

fn buffer(n: &[usize]) -> Buffer {
    Buffer { width: n[0], count: 0, words: vec![0; n[0] * n[1]] }
}

fn task<'a>(lines: &mut impl Iterator<Item = &'a str>) -> Task {
    let n = numbers(lines);
    Task {
        priority: n[0],
        message: n[1],
        place: 0,
        words: vec![0; n[2]],
        stack: Vec::new(),
        calls: Vec::new(),
        buffers: (0..n[3]).map(|_| buffer(&numbers(lines))).collect(),
        code: (0..n[4]).map(|_| instr(lines.next().unwrap())).collect(),
        queue: VecDeque::new(),
    }
}

fn machine(text: &str) -> Machine {
    let mut lines = text.lines().skip(1);
    let lines = &mut lines;
    let monitors = numbers(lines)[0];
    let monitors = (0..monitors).map(|_| Monitor { words: vec![0; numbers(lines)[0]], is_held: false }).collect();
    let outputs = numbers(lines)[0];
    let outputs = (0..outputs).map(|_| numbers(lines)[0]).collect();
    let tasks = numbers(lines)[0];
    let tasks = (0..tasks).map(|_| task(lines)).collect();
    Machine { monitors, outputs, tasks, count: 0 }
}

// ---- arithmetic

fn wrap(to: Scalar, a: Word) -> Word {
    match to {
        Scalar::Signed(8) => a as i8 as Word,
        Scalar::Signed(16) => a as i16 as Word,
        Scalar::Signed(32) => a as i32 as Word,
        Scalar::Signed(_) => a as i64 as Word,
        Scalar::Unsigned(8) => a as u8 as Word,
        Scalar::Unsigned(16) => a as u16 as Word,
        Scalar::Unsigned(32) => a as u32 as Word,
        Scalar::Unsigned(_) => a as u64 as Word,
        Scalar::Index(n) => a.rem_euclid(n),
        Scalar::Bool => a,
    }
}

fn binary(op: Op, a: Word, b: Word) -> Word {
    match op {
        Op::Add => a + b,
        Op::Sub => a - b,
        Op::Mul => a.wrapping_mul(b),
        Op::Div if b == 0 => 0,
        Op::Div => a / b,
        Op::Rem if b == 0 => a,
        Op::Rem => a % b,
        Op::And => a & b,
        Op::Or => a | b,
        Op::Xor => a ^ b,
        Op::Eq => (a == b) as Word,
        Op::Lt => (a < b) as Word,
        Op::Le => (a <= b) as Word,
        Op::Not | Op::Neg => panic!(),
    }
}

fn unary(op: Op, a: Word) -> Word {
    match op {
        Op::Not => 1 - a,
        _ => -a,
    }
}

// ---- runs

impl Machine {
    fn is_ready(&self, x: usize) -> bool {
        let task = &self.tasks[x];
        match task.code[task.place] {
            Instr::Take(_) => !task.queue.is_empty(),
            Instr::Lock(m) => !self.monitors[m].is_held,
            _ => true,
        }
    }

    /// The ready task of the greatest priority. A period waits for the initialisations.
    fn next(&self, kinds: &[String]) -> Option<usize> {
        let is_idle = |x: usize| {
            matches!(self.tasks[x].code[self.tasks[x].place], Instr::Take(_)) && self.tasks[x].queue.is_empty()
        };
        let started = (0..kinds.len()).all(|x| kinds[x] != "init" || is_idle(x));
        let mut best: Option<usize> = None;
        for x in 0..self.tasks.len() {
            let is_held_back = !started
                && kinds[x] != "init"
                && matches!(self.tasks[x].code[self.tasks[x].place], Instr::Take(_));
            if is_held_back || !self.is_ready(x) {
                continue;
            }
            if best.is_none_or(|b| self.tasks[x].priority > self.tasks[b].priority) {
                best = Some(x);
            }
        }
        best
    }

    /// Task x goes on until behind the next TAKE, LOCK, UNLOCK or OUT.
    fn run(&mut self, x: usize, out: &mut impl Write) -> io::Result<()> {
        let task = &mut self.tasks[x];
        loop {
            self.count += 1;
            let at = task.code[task.place];
            task.place += 1;
            let stack = &mut task.stack;
            match at {
                Instr::Push(n) => stack.push(n),
                Instr::Drop => drop(stack.pop()),
                Instr::Dup => stack.push(*stack.last().unwrap()),
                Instr::Ld(a) => stack.push(task.words[a]),
                Instr::St(a) => task.words[a] = stack.pop().unwrap(),
                Instr::Ldx(a) => {
                    let i = stack.pop().unwrap() as usize;
                    stack.push(task.words[a + i]);
                }
                Instr::Stx(a) => {
                    let v = stack.pop().unwrap();
                    let i = stack.pop().unwrap() as usize;
                    task.words[a + i] = v;
                }
                Instr::Ldm(m, a) => {
                    let i = stack.pop().unwrap() as usize;
                    stack.push(self.monitors[m].words[a + i]);
                }
                Instr::Stm(m, a) => {
                    let v = stack.pop().unwrap();
                    let i = stack.pop().unwrap() as usize;
                    self.monitors[m].words[a + i] = v;
                }
                Instr::Un(op, to) => {
                    let a = stack.pop().unwrap();
                    stack.push(wrap(to, unary(op, a)));
                }
                Instr::Bin(op, to) => {
                    let b = stack.pop().unwrap();
                    let a = stack.pop().unwrap();
                    stack.push(match op {
                        Op::Eq | Op::Lt | Op::Le => binary(op, a, b),
                        _ => wrap(to, binary(op, a, b)),
                    });
                }
                Instr::Cast(to) => {
                    let a = stack.pop().unwrap();
                    stack.push(wrap(to, a));
                }
                Instr::Jmp(to) => task.place = to,
                Instr::Jz(to) => {
                    if stack.pop().unwrap() == 0 {
                        task.place = to;
                    }
                }
                Instr::Call(to) => {
                    task.calls.push(task.place);
                    task.place = to;
                }
                Instr::Ret => task.place = task.calls.pop().unwrap(),
                Instr::Take(a) => {
                    for i in 0..task.message {
                        task.words[a + i] = task.queue.pop_front().unwrap();
                    }
                    return writeln!(out, "{} s {x}", self.count);
                }
                Instr::Lock(m) => {
                    self.monitors[m].is_held = true;
                    return Ok(());
                }
                Instr::Unlock(m) => {
                    self.monitors[m].is_held = false;
                    return writeln!(out, "{} r {x}", self.count);
                }
                Instr::Out(o, a) => {
                    let words = &task.words[a..a + self.outputs[o]];
                    write!(out, "{} o {x}\nout {o}", self.count)?;
                    for word in words {
                        write!(out, " {word}")?;
                    }
                    return writeln!(out);
                }
                Instr::Bclr(b) => task.buffers[b].count = 0,
                Instr::Bput(b) => {
                    let v = stack.pop().unwrap();
                    let j = stack.pop().unwrap() as usize;
                    let b = &mut task.buffers[b];
                    b.words[b.count * b.width + j] = v;
                }
                Instr::Badd(b) => task.buffers[b].count += 1,
                Instr::Bget(b) => {
                    let j = stack.pop().unwrap() as usize;
                    let i = stack.pop().unwrap() as usize;
                    let b = &task.buffers[b];
                    stack.push(b.words[i * b.width + j]);
                }
                Instr::Bcnt(b) => stack.push(task.buffers[b].count as Word),
            }
            if matches!(task.code[task.place], Instr::Take(_) | Instr::Lock(_)) {
                return Ok(());
            }
        }
    }

    fn tick(&mut self, k: u64, kinds: &[String]) {
        for (task, kind) in self.tasks.iter_mut().zip(kinds) {
            if kind.parse::<u64>().is_ok_and(|ms| k % ms == 0) {
                task.queue.push_back(k as Word);
            }
        }
    }
}

fn main() -> io::Result<()> {
    let words: Vec<String> = env::args().collect();
    let (ticks, kinds) = (words[2].parse::<u64>().unwrap(), &words[3..]);
    let mut machine = machine(&fs::read_to_string(&words[1])?);
    let mut out = BufWriter::new(io::stdout());
    for (task, kind) in machine.tasks.iter_mut().zip(kinds) {
        if kind == "init" {
            task.queue.push_back(0);
        }
    }
    for k in 0..=ticks {
        if k > 0 {
            machine.tick(k, kinds);
            writeln!(out, "{} a", machine.count)?;
        }
        while let Some(x) = machine.next(kinds) {
            machine.run(x, &mut out)?;
        }
    }
    writeln!(out, "count {}", machine.count)?;
    out.flush()
}
