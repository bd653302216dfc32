//! Times a plain tree-walking interpreter against `measure_run`, in one run, and `measure_run` on one loop alone and in the
//! largest file. See bench/run.sh.
#![allow(dead_code)]

use std::process::Command;
use std::time::Instant;

const BUDGET: u32 = 20_000_000;
const TURNS: u32 = 7;

// ---- the tree, as the compiler has it: vectors and boxes

struct Operation {
    kind: u32,
    payload: u32,
    written: Vec<usize>,
    operands: Vec<usize>,
}

enum Value {
    Operation(Operation),
    Logical(u32, Box<Value>, Box<Value>),
    Conditional(Box<Value>, Box<Value>, Box<Value>),
    Sequence(Vec<Instruction>, Box<Value>),
    Optional(Box<Value>),
}

struct Instruction {
    lvalue: Option<usize>,
    value: Value,
}

type Block = Vec<Statement>;

enum Statement {
    Instruction(Instruction),
    Terminal(Box<Terminal>, Option<u32>),
    Scope(usize, Block),
    PrunedScope(Block),
}

enum Terminal {
    Break(u32, u32),
    Continue(u32, u32),
    Return(usize),
    Throw(usize),
    Switch(usize, Vec<(Option<usize>, Option<Block>)>),
    DoWhile(Block, Value),
    While(Value, Block),
    For(Value, Value, Option<Value>, Block),
    If(usize, Block, Option<Block>),
    Label(Block),
    Try(Block, Option<usize>, Block),
}

struct Function {
    identifiers: usize,
    records: Vec<Option<usize>>,
    body: Block,
}

// ---- the reader of a good file

struct Reader<'a> {
    words: &'a [u32],
    at: usize,
}

impl Reader<'_> {
    fn word(&mut self) -> u32 {
        self.at += 1;
        self.words[self.at - 1]
    }

    fn optional<T>(&mut self, read: impl FnOnce(&mut Self) -> T) -> Option<T> {
        (self.word() == 1).then(|| read(self))
    }

    fn list<T>(&mut self, mut read: impl FnMut(&mut Self) -> T) -> Vec<T> {
        let count = self.word();
        (0..count).map(|_| read(self)).collect()
    }

    fn place(&mut self) -> usize {
        let identifier = self.word();
        self.at += 3;
        identifier as usize
    }

    fn value(&mut self) -> Value {
        match self.word() {
            0 => {
                let (kind, payload) = (self.word(), self.word());
                let (written, operands) = (self.list(Self::place), self.list(Self::place));
                self.word();
                Value::Operation(Operation { kind, payload, written, operands })
            }
            1 => Value::Logical(self.word(), Box::new(self.value()), Box::new(self.value())),
            2 => Value::Conditional(Box::new(self.value()), Box::new(self.value()), Box::new(self.value())),
            3 => {
                let instructions = self.list(Self::instruction);
                self.word();
                Value::Sequence(instructions, Box::new(self.value()))
            }
            _ => {
                let value = Value::Optional(Box::new(self.value()));
                self.word();
                value
            }
        }
    }

    fn instruction(&mut self) -> Instruction {
        self.word();
        let lvalue = self.optional(Self::place);
        let value = self.value();
        self.word();
        Instruction { lvalue, value }
    }

    fn block(&mut self) -> Block {
        self.list(Self::statement)
    }

    fn statement(&mut self) -> Statement {
        match self.word() {
            0 => Statement::Instruction(self.instruction()),
            1 => {
                let terminal = Box::new(self.terminal());
                let label = self.optional(|r| (r.word(), r.word()));
                Statement::Terminal(terminal, label.filter(|l| l.1 == 0).map(|l| l.0))
            }
            2 => Statement::Scope(self.word() as usize, self.block()),
            _ => {
                self.word();
                Statement::PrunedScope(self.block())
            }
        }
    }

    fn terminal(&mut self) -> Terminal {
        let case = self.word();
        let mut more = 1;
        let terminal = match case {
            0 | 1 => {
                let target = self.word();
                self.word();
                let kind = self.word();
                more = 0;
                if case == 0 { Terminal::Break(target, kind) } else { Terminal::Continue(target, kind) }
            }
            2 => Terminal::Return(self.place()),
            3 => Terminal::Throw(self.place()),
            4 => Terminal::Switch(self.place(), self.list(|r| (r.optional(Self::place), r.optional(Self::block)))),
            5 => Terminal::DoWhile(self.block(), self.value()),
            6 => Terminal::While(self.value(), self.block()),
            7 => Terminal::For(self.value(), self.value(), self.optional(Self::value), self.block()),
            8 => {
                more = 2;
                Terminal::For(self.value(), self.value(), None, self.block())
            }
            9 => {
                more = 2;
                Terminal::While(self.value(), self.block())
            }
            10 => Terminal::If(self.place(), self.block(), self.optional(Self::block)),
            11 => Terminal::Label(self.block()),
            _ => Terminal::Try(self.block(), self.optional(Self::place), self.block()),
        };
        self.at += more;
        terminal
    }

    fn function(words: &[u32]) -> Function {
        let mut reader = Reader { words, at: words[2] as usize };
        let mut identifiers = 0;
        while reader.at < (words[2] + words[3]) as usize {
            reader.word();
            reader.optional(|r| (r.word(), r.word()));
            reader.word();
            reader.optional(|r| r.word());
            reader.at += 2;
            identifiers += 1;
        }
        let mut records = vec![];
        while reader.at < (words[4] + words[5]) as usize {
            let early = reader.optional(|r| (r.word(), r.word(), r.word()));
            reader.list(|r| (r.word(), r.word(), r.word()));
            records.push(early.map(|e| e.0 as usize));
        }
        Function { identifiers, records, body: reader.block() }
    }
}

// ---- the interpreter

trait Host {
    fn ask(&mut self, kind: u32, payload: u32, position: u32, values: &[u32]) -> Result<u32, u32>;
}

struct NumberHost;

impl Host for NumberHost {
    fn ask(&mut self, kind: u32, payload: u32, position: u32, values: &[u32]) -> Result<u32, u32> {
        match (kind, payload, position, values) {
            (28, 1, 0, []) => Ok(2),
            (23, 2, 0, [2]) => Ok(3),
            (7, 3, 0, []) => Ok(4),
            (12, 0, 0, [2, 3, 4]) => Ok(1),
            _ => Ok(values.iter().fold(payload, |sum, v| sum.wrapping_add(*v))),
        }
    }
}

// How a part ended, when not at its end.
enum Exit {
    Break(Option<u32>),
    Continue(Option<u32>),
    Return(u32),
    Throw(u32),
    Spent,
}

type Done<T = ()> = Result<T, Exit>;

struct Run<'a, H> {
    function: &'a Function,
    host: H,
    store: Vec<u32>,
    values: Vec<u32>,
    steps: u32,
    budget: u32,
    entries: u32,
    recorded: bool,
}

impl<H: Host> Run<'_, H> {
    fn step(&mut self) -> Done {
        if self.steps == self.budget {
            return Err(Exit::Spent);
        }
        self.steps += 1;
        Ok(())
    }

    fn ask(&mut self, kind: u32, payload: u32, position: u32) -> Done<u32> {
        self.host.ask(kind, payload, position, &self.values).map_err(Exit::Throw)
    }

    fn test(&mut self, payload: u32, value: u32) -> Done<bool> {
        self.values.clear();
        self.values.push(value);
        Ok(self.ask(42, payload, 0)? != 0)
    }

    fn tested(&mut self, value: &Value) -> Done<bool> {
        let value = self.value(value)?;
        self.test(0, value)
    }

    fn value(&mut self, value: &Value) -> Done<u32> {
        match value {
            Value::Operation(operation) => self.operation(operation),
            Value::Logical(operator, left, right) => {
                let left = self.value(left)?;
                if self.test(1 + operator, left)? { self.value(right) } else { Ok(left) }
            }
            Value::Conditional(test, yes, no) => {
                if self.tested(test)? { self.value(yes) } else { self.value(no) }
            }
            Value::Sequence(instructions, last) => {
                for instruction in instructions {
                    self.instruction(instruction)?;
                }
                self.value(last)
            }
            Value::Optional(inner) => self.value(inner),
        }
    }

    fn operation(&mut self, operation: &Operation) -> Done<u32> {
        match operation.kind {
            0 | 1 => Ok(self.store[operation.operands[0]]),
            2 | 3 => {
                self.store[operation.written[0]] = 0;
                Ok(0)
            }
            4 | 5 => {
                let value = self.store[operation.operands[operation.operands.len() - 1]];
                self.store[operation.written[0]] = value;
                Ok(value)
            }
            kind => {
                self.values.clear();
                for place in &operation.operands {
                    self.values.push(self.store[*place]);
                }
                let given = self.ask(kind, operation.payload, 0)?;
                if matches!(kind, 6 | 37 | 38) {
                    for (n, place) in operation.written.iter().enumerate() {
                        self.store[*place] = self.ask(kind, operation.payload, n as u32 + 1)?;
                    }
                }
                Ok(given)
            }
        }
    }

    fn instruction(&mut self, instruction: &Instruction) -> Done {
        self.step()?;
        let value = self.value(&instruction.value)?;
        if let Some(place) = instruction.lvalue {
            self.store[place] = value;
        }
        Ok(())
    }

    fn block(&mut self, block: &Block) -> Done {
        for statement in block {
            self.statement(statement)?;
        }
        Ok(())
    }

    fn statement(&mut self, statement: &Statement) -> Done {
        match statement {
            Statement::Instruction(instruction) => self.instruction(instruction),
            Statement::Scope(scope, block) => {
                self.step()?;
                let Some(place) = self.function.records[*scope] else {
                    return self.block(block);
                };
                self.entries += 1;
                self.block(block)?;
                if self.store[place] == 1 {
                    return Ok(());
                }
                self.recorded = true;
                Err(Exit::Return(self.store[place]))
            }
            Statement::PrunedScope(block) => {
                self.step()?;
                self.block(block)
            }
            Statement::Terminal(terminal, label) => {
                self.step()?;
                match self.terminal(terminal, *label) {
                    Err(Exit::Break(Some(target))) if Some(target) == *label => Ok(()),
                    done => done,
                }
            }
        }
    }

    // Whether the round went on to its end.
    fn round(&mut self, block: &Block, label: Option<u32>) -> Done {
        match self.block(block) {
            Err(Exit::Continue(target)) if target.is_none() || target == label => Ok(()),
            done => done,
        }
    }

    fn looped(&mut self, test: &Value, update: Option<&Value>, block: &Block, label: Option<u32>) -> Done {
        loop {
            self.step()?;
            if !self.tested(test)? {
                return Ok(());
            }
            self.round(block, label)?;
            if let Some(update) = update {
                self.value(update)?;
            }
        }
    }

    fn terminal(&mut self, terminal: &Terminal, label: Option<u32>) -> Done {
        let done = match terminal {
            Terminal::Break(target, kind) => match kind {
                0 => Ok(()),
                1 => Err(Exit::Break(Some(*target))),
                _ => Err(Exit::Break(None)),
            },
            Terminal::Continue(target, kind) => match kind {
                0 => Ok(()),
                1 => Err(Exit::Continue(Some(*target))),
                _ => Err(Exit::Continue(None)),
            },
            Terminal::Return(place) => Err(Exit::Return(self.store[*place])),
            Terminal::Throw(place) => Err(Exit::Throw(self.store[*place])),
            Terminal::If(place, yes, no) => {
                if self.test(0, self.store[*place])? {
                    self.block(yes)
                } else if let Some(no) = no {
                    self.block(no)
                } else {
                    Ok(())
                }
            }
            Terminal::Label(block) => self.block(block),
            Terminal::Try(block, binding, handler) => match self.block(block) {
                Err(Exit::Throw(value)) => {
                    if let Some(place) = binding {
                        self.store[*place] = value;
                    }
                    self.block(handler)
                }
                done => done,
            },
            _ => return self.breakable(terminal, label),
        };
        done
    }

    // What a break without a label ends.
    fn breakable(&mut self, terminal: &Terminal, label: Option<u32>) -> Done {
        let done = match terminal {
            Terminal::Switch(place, cases) => self.switch(*place, cases),
            Terminal::DoWhile(block, test) => self.do_while(block, test, label),
            Terminal::While(test, block) => self.looped(test, None, block, label),
            Terminal::For(init, test, update, block) => {
                self.value(init)?;
                self.looped(test, update.as_ref(), block, label)
            }
            _ => unreachable!(),
        };
        match done {
            Err(Exit::Break(None)) => Ok(()),
            done => done,
        }
    }

    fn do_while(&mut self, block: &Block, test: &Value, label: Option<u32>) -> Done {
        loop {
            self.step()?;
            self.round(block, label)?;
            if !self.tested(test)? {
                return Ok(());
            }
        }
    }

    fn switch(&mut self, place: usize, cases: &[(Option<usize>, Option<Block>)]) -> Done {
        let value = self.store[place];
        let mut chosen = cases.iter().position(|case| case.0.is_none()).unwrap_or(cases.len());
        for (n, case) in cases.iter().enumerate() {
            let Some(test) = case.0 else { continue };
            self.values.clear();
            self.values.extend([value, self.store[test]]);
            if self.ask(43, 0, 0)? != 0 {
                chosen = n;
                break;
            }
        }
        for block in cases[chosen..].iter().filter_map(|case| case.1.as_ref()) {
            self.block(block)?;
        }
        Ok(())
    }
}

// ---- the loop, about 17 steps a round

fn listed(items: &[Vec<u32>]) -> Vec<u32> {
    let mut words = vec![items.len() as u32];
    items.iter().for_each(|item| words.extend(item));
    words
}

fn places(numbers: &[u32]) -> Vec<u32> {
    listed(&numbers.iter().map(|n| vec![*n, 0, 0, 0]).collect::<Vec<_>>())
}

fn operation(kind: u32, payload: u32, written: &[u32], operands: &[u32]) -> Vec<u32> {
    [vec![0, kind, payload], places(written), places(operands), vec![0]].concat()
}

fn load(place: u32) -> Vec<u32> {
    operation(0, 0, &[], &[place])
}

fn instruction(lvalue: u32, value: Vec<u32>) -> Vec<u32> {
    [vec![0, 1, lvalue, 0, 0, 0], value, vec![0]].concat()
}

fn put(lvalue: u32, value: Vec<u32>) -> Vec<u32> {
    [vec![0], instruction(lvalue, value)].concat()
}

// Makes `7: for (0 := 1; ask; 1++) { .. continue 7 }`, which never ends on the number host.
fn endless() -> Vec<u32> {
    let sum = put(2, operation(9, 3, &[], &[1, 0]));
    let choice = [vec![1, 10, 2, 0, 0, 0], listed(&[put(3, load(2))]), vec![1], listed(&[put(3, load(1))]), vec![0, 0]].concat();
    let leave = vec![1, 0, 0, 0, 2, 0];
    let cases = listed(&[[vec![1, 4, 0, 0, 0, 1], listed(&[put(5, load(3)), leave])].concat(), vec![0, 0]]);
    let switch = [vec![1, 4, 3, 0, 0, 0], cases, vec![0, 0]].concat();
    let logical = [vec![1, 0], load(5), load(3)].concat();
    let sequence = put(4, [vec![3], listed(&[instruction(5, load(2))]), vec![0], logical].concat());
    let conditional = [vec![2], load(4), load(5), operation(9, 1, &[], &[])].concat();
    let inner = [vec![1, 5], listed(&[put(6, conditional)]), load(7), vec![0, 0]].concat();
    let scope = [vec![2, 0], listed(&[inner])].concat();
    let onward = listed(&[vec![1, 1, 7, 0, 1, 0]]);
    let caught = [vec![1, 12], listed(&[vec![1, 3, 4, 0, 0, 0, 0, 0]]), vec![1, 6, 0, 0, 0], onward, vec![0, 0]].concat();
    let body = listed(&[sum, choice, switch, sequence, scope, caught]);
    let init = operation(4, 0, &[0], &[1]);
    let update = operation(37, 1, &[1], &[1]);
    [vec![1, 7], init, operation(9, 5, &[], &[]), vec![1], update, body, vec![0, 1, 7, 0]].concat()
}

fn file(identifiers: u32, body: &[Vec<u32>]) -> Vec<u32> {
    let sections = [vec![8, 1, 1], [0; 6].repeat(identifiers as usize), vec![0, 0], listed(body)];
    let mut words = vec![];
    let mut at = 8;
    for section in &sections {
        words.extend([at, section.len() as u32]);
        at += section.len() as u32;
    }
    words.extend(sections.concat());
    words
}

// Puts the loop behind statements that are not run, and before others, until the file is full.
fn largest() -> Vec<u32> {
    let idle = vec![0, 0, 0, 0, 39, 0, 0, 0, 0, 0];
    let mut before = 0;
    loop {
        let skipped = [vec![1, 10, 7, 0, 0, 0], listed(&vec![idle.clone(); before + 1]), vec![0, 0, 0]].concat();
        let body = [vec![skipped, endless()], vec![idle.clone(); before + 1]].concat();
        if file(8, &body).len() > 16384 {
            return file(8, &[vec![[vec![1, 10, 7, 0, 0, 0], listed(&vec![idle.clone(); before]), vec![0, 0, 0]].concat(), endless()], vec![idle; before]].concat());
        }
        before += 1;
    }
}

fn theirs(words: &[u32]) -> f64 {
    let function = Reader::function(words);
    let mut best = f64::MAX;
    for _ in 0..TURNS {
        let store = vec![0; function.identifiers];
        let mut run = Run { function: &function, host: NumberHost, store, values: vec![], steps: 0, budget: BUDGET, entries: 0, recorded: false };
        let begin = Instant::now();
        let done = run.block(&function.body);
        best = best.min(begin.elapsed().as_nanos() as f64);
        assert!(matches!(done, Err(Exit::Spent)) && run.steps == BUDGET && run.entries == 0 && !run.recorded);
    }
    best / f64::from(BUDGET)
}

fn ours(program: &str, path: &str, words: &[u32]) -> f64 {
    std::fs::write(path, words.iter().flat_map(|w| w.to_le_bytes()).collect::<Vec<_>>()).expect("the file is written");
    let said = Command::new(program).args([path, &BUDGET.to_string(), &TURNS.to_string()]).output().expect("measure_run").stdout;
    let nanoseconds: f64 = String::from_utf8_lossy(&said).trim().parse().expect("nanoseconds");
    nanoseconds / f64::from(BUDGET)
}

fn main() {
    let arguments: Vec<String> = std::env::args().collect();
    let (program, path) = (&arguments[1], format!("{}/loop", arguments[2]));
    let (small, large) = (file(8, &[endless()]), largest());
    let rust = theirs(&small);
    let proved = ours(program, &path, &small);
    println!("the Rust {rust:.1} ns a step, the run {proved:.1} ns a step, ratio {:.2}", proved / rust);
    let alone = ours(program, &path, &small);
    let among = ours(program, &path, &large);
    println!("the loop alone ({} words) {alone:.1} ns a step, in the largest file ({} words) {among:.1}, ratio {:.2}", small.len(), large.len(), among / alone);
}
