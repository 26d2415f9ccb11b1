// A parser's machine in plain Rust, to time the proved one against: the same types, the same bits in words, the same loops.
// And how a file of requests is gone through.
use std::env;
use std::fs;
use std::io::{self, BufWriter, Write};
use std::process::ExitCode;

pub enum Expr {
    Header(u16),
    Bits(Vec<u8>),
    Slice(Box<Expr>, u16, u16),
    Join(Box<Expr>, Box<Expr>),
}

pub enum Op {
    Extract(u16),
    Assign(u16, Expr),
}

#[derive(Clone, Copy)]
pub enum Target {
    State(u16),
    Accept,
    Reject,
}

pub enum Pattern {
    Exactly(Vec<u8>),
    Any,
}

pub struct Case {
    patterns: Vec<Pattern>,
    target: Target,
}

pub struct State {
    ops: Vec<Op>,
    keys: Vec<Expr>,
    cases: Vec<Case>,
    otherwise: Target,
}

pub struct Parser {
    pub sizes: Vec<u16>,
    pub states: Vec<State>,
}

// What is in the headers: a row of bits, in words.
#[derive(Clone, Copy)]
pub struct Store {
    pub words: [u64; 64],
}

impl Store {
    pub fn empty() -> Store {
        Store { words: [0; 64] }
    }

    fn get(&self, k: usize) -> u8 {
        (self.words[k / 64] >> (k % 64) & 1) as u8
    }

    fn set(&mut self, k: usize, on: bool) {
        let mask = 1u64 << (k % 64);
        if on {
            self.words[k / 64] |= mask;
        } else {
            self.words[k / 64] &= !mask;
        }
    }
}

// A parser made ready to run: the first bit of each header in a store, and how many bits each state takes.
pub struct Machine {
    pub parser: Parser,
    starts: Vec<usize>,
    pub widths: Vec<usize>,
}

impl Machine {
    pub fn new(parser: Parser) -> Machine {
        let mut starts = Vec::with_capacity(parser.sizes.len());
        let mut next = 0;
        for size in &parser.sizes {
            starts.push(next);
            next += *size as usize;
        }
        let widths = parser.states.iter().map(|state| taken(state, &parser.sizes)).collect();
        Machine { parser, starts, widths }
    }

    pub fn walk(&self, q: u16, store: &mut Store, part: &[u8]) -> Target {
        let state = &self.parser.states[q as usize];
        let mut at = 0;
        for op in &state.ops {
            match op {
                Op::Extract(h) => {
                    self.put(*h, store, &part[at..]);
                    at += self.size(*h);
                }
                Op::Assign(h, e) => self.assign(*h, store, e),
            }
        }
        self.select(state, store)
    }

    pub fn put(&self, h: u16, store: &mut Store, bits: &[u8]) {
        let start = self.starts[h as usize];
        for (i, bit) in bits[..self.size(h)].iter().enumerate() {
            store.set(start + i, *bit == 1);
        }
    }

    // A header gets the value of an expression, which may read that header: so it reads a copy.
    fn assign(&self, h: u16, store: &mut Store, e: &Expr) {
        let before = *store;
        let start = self.starts[h as usize];
        for i in 0..self.size(h) {
            store.set(start + i, self.bit(e, &before, i) == 1);
        }
    }

    fn select(&self, state: &State, store: &Store) -> Target {
        'cases: for case in &state.cases {
            for (key, pattern) in state.keys.iter().zip(&case.patterns) {
                match pattern {
                    Pattern::Any => {}
                    Pattern::Exactly(bits) => {
                        for (i, bit) in bits.iter().enumerate() {
                            if self.bit(key, store, i) != *bit {
                                continue 'cases;
                            }
                        }
                    }
                }
            }
            return case.target;
        }
        state.otherwise
    }

    fn size(&self, h: u16) -> usize {
        self.parser.sizes[h as usize] as usize
    }

    fn width(&self, e: &Expr) -> usize {
        match e {
            Expr::Header(h) => self.size(*h),
            Expr::Bits(bits) => bits.len(),
            Expr::Slice(_, lo, hi) => *hi as usize + 1 - *lo as usize,
            Expr::Join(left, right) => self.width(left) + self.width(right),
        }
    }

    // bit i of an expression
    fn bit(&self, e: &Expr, store: &Store, i: usize) -> u8 {
        match e {
            Expr::Header(h) => store.get(self.starts[*h as usize] + i),
            Expr::Bits(bits) => bits[i],
            Expr::Slice(inner, lo, _) => self.bit(inner, store, *lo as usize + i),
            Expr::Join(left, right) => {
                let n = self.width(left);
                if i < n {
                    self.bit(left, store, i)
                } else {
                    self.bit(right, store, i - n)
                }
            }
        }
    }
}

// how many bits a state takes
fn taken(state: &State, sizes: &[u16]) -> usize {
    let extracted = |op: &Op| match op {
        Op::Extract(h) => sizes[*h as usize] as usize,
        Op::Assign(..) => 0,
    };
    state.ops.iter().map(extracted).sum()
}

// Reads from the front of the bytes that are left; none where they are no request.
pub struct Reader<'a> {
    pub rest: &'a [u8],
}

impl<'a> Reader<'a> {
    pub fn bytes(&mut self, n: usize) -> Option<&'a [u8]> {
        let (bytes, rest) = self.rest.split_at_checked(n)?;
        self.rest = rest;
        Some(bytes)
    }

    pub fn u8(&mut self) -> Option<u8> {
        Some(self.bytes(1)?[0])
    }

    pub fn u16(&mut self) -> Option<u16> {
        Some(u16::from_be_bytes(self.bytes(2)?.try_into().ok()?))
    }

    pub fn u32(&mut self) -> Option<u32> {
        Some(u32::from_be_bytes(self.bytes(4)?.try_into().ok()?))
    }

    // a row of bits, one to a byte
    pub fn row(&mut self, n: usize) -> Option<Vec<u8>> {
        let row = self.bytes(n)?;
        row.iter().all(|bit| *bit < 2).then(|| row.to_vec())
    }

    pub fn bits(&mut self) -> Option<Vec<u8>> {
        let n = self.u16()?;
        self.row(n as usize)
    }

    pub fn many<T>(&mut self, read: impl Fn(&mut Self) -> Option<T>) -> Option<Vec<T>> {
        let n = self.u16()?;
        (0..n).map(|_| read(self)).collect()
    }

    fn expr(&mut self, depth: usize) -> Option<Expr> {
        let tag = self.u8()?;
        match tag {
            0 => Some(Expr::Header(self.u16()?)),
            1 => Some(Expr::Bits(self.bits()?)),
            2 if depth > 0 => {
                let (lo, hi) = (self.u16()?, self.u16()?);
                Some(Expr::Slice(Box::new(self.expr(depth - 1)?), lo, hi))
            }
            3 if depth > 0 => {
                let left = Box::new(self.expr(depth - 1)?);
                Some(Expr::Join(left, Box::new(self.expr(depth - 1)?)))
            }
            _ => None,
        }
    }

    fn op(&mut self) -> Option<Op> {
        match self.u8()? {
            0 => Some(Op::Extract(self.u16()?)),
            1 => Some(Op::Assign(self.u16()?, self.expr(15)?)),
            _ => None,
        }
    }

    fn target(&mut self) -> Option<Target> {
        match self.u8()? {
            0 => Some(Target::State(self.u16()?)),
            1 => Some(Target::Accept),
            2 => Some(Target::Reject),
            _ => None,
        }
    }

    fn pattern(&mut self) -> Option<Pattern> {
        match self.u8()? {
            0 => Some(Pattern::Exactly(self.bits()?)),
            1 => Some(Pattern::Any),
            _ => None,
        }
    }

    fn case(&mut self) -> Option<Case> {
        let patterns = self.many(Self::pattern)?;
        let target = self.target()?;
        Some(Case { patterns, target })
    }

    fn state(&mut self) -> Option<State> {
        let ops = self.many(Self::op)?;
        let keys = self.many(|reader| reader.expr(15))?;
        let cases = self.many(Self::case)?;
        let otherwise = self.target()?;
        Some(State { ops, keys, cases, otherwise })
    }

    pub fn parser(&mut self) -> Option<Parser> {
        let sizes = self.many(Self::u16)?;
        let states = self.many(Self::state)?;
        Some(Parser { sizes, states })
    }
}

// Prints for each request of the file that is named on the command line what `answer` gives; what it can't answer, it does not go on with.
pub fn answer_all(answer: impl FnMut(Reader) -> Option<&'static str>) -> ExitCode {
    let Some(path) = env::args_os().nth(1) else {
        eprintln!("usage: FILE");
        return ExitCode::from(2);
    };
    let file = match fs::read(&path) {
        Ok(file) => file,
        Err(error) => {
            eprintln!("{}: {error}", path.display());
            return ExitCode::FAILURE;
        }
    };
    match answer_each(&file, answer) {
        Ok(()) => ExitCode::SUCCESS,
        Err(error) => {
            eprintln!("{}: {error}", path.display());
            ExitCode::FAILURE
        }
    }
}

fn answer_each(file: &[u8], mut answer: impl FnMut(Reader) -> Option<&'static str>) -> io::Result<()> {
    let mut out = BufWriter::new(io::stdout().lock());
    let mut records = Reader { rest: file };
    while !records.rest.is_empty() {
        let at = file.len() - records.rest.len();
        let request = records.u32().and_then(|n| records.bytes(n as usize));
        let Some(word) = request.and_then(|rest| answer(Reader { rest })) else {
            return Err(io::Error::other(format!("the record at byte {at} can't be answered")));
        };
        writeln!(out, "{word}")?;
    }
    out.flush()
}
