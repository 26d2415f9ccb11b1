// Comparing in plain Rust, to time the proved exhaustive search against: the same numbers for pairs, the same sets and queue in lent room.
// It reads a file of requests to compare and prints for each just alike, unlike or neither; the way back to a message is not gone.
mod machine;

use machine::{Machine, Parser, Reader, Store, Target};
use std::process::ExitCode;

const MOST_PAIRS: u64 = 1 << 20;
const MOST_ROOM: u64 = 1 << 24;

struct Compare {
    first: Parser,
    second: Parser,
    first_start: u16,
    second_start: u16,
    work: u64,
    room: u64,
}

impl Reader<'_> {
    fn u64(&mut self) -> Option<u64> {
        Some(u64::from_be_bytes(self.bytes(8)?.try_into().ok()?))
    }

    fn compare(&mut self) -> Option<Compare> {
        if self.u8()? != 1 {
            return None;
        }
        let (first, second) = (self.parser()?, self.parser()?);
        let (first_start, second_start) = (self.u16()?, self.u16()?);
        let (work, room) = (self.u64()?, self.u64()?);
        self.rest.is_empty().then_some(Compare { first, second, first_start, second_start, work, room })
    }
}

// A parser whose configurations are numbers: the target, then the header bits, then what the state has taken so far, its first bit lowest,
// with a 1 put after the last.
struct Side {
    machine: Machine,
    states: u64,
    header_bits: u32,
    widest: u32,
    count: u64,
}

impl Side {
    // none where there are too many configurations to be counted
    fn new(parser: Parser) -> Option<Side> {
        let machine = Machine::new(parser);
        let states = machine.parser.states.len() as u64;
        let header_bits = machine.parser.sizes.iter().map(|size| *size as u32).sum();
        let widest = machine.widths.iter().copied().max().unwrap_or(0) as u32;
        if header_bits + widest > 20 {
            return None;
        }
        let count = (states + 2) << (header_bits + widest);
        Some(Side { machine, states, header_bits, widest, count })
    }

    fn config(&self, target: u64, bits: u64, buffer: u64) -> u64 {
        (((target << self.header_bits) + bits) << self.widest) + buffer
    }

    fn target(&self, config: u64) -> u64 {
        config >> self.widest >> self.header_bits
    }

    fn is_accept(&self, config: u64) -> bool {
        self.target(config) == self.states
    }

    fn after(&self, config: u64, bit: u64) -> u64 {
        let target = self.target(config);
        let bits = config >> self.widest & ((1 << self.header_bits) - 1);
        if target >= self.states {
            return self.config(self.states + 1, bits, 1);
        }
        let marked = config & ((1 << self.widest) - 1);
        let n = marked.ilog2();
        let buffer = marked ^ (1 << n) | bit << n;
        let width = self.machine.widths[target as usize];
        if (n as usize) + 1 < width {
            return self.config(target, bits, buffer | 2 << n);
        }
        let mut part = [0u8; 64];
        for i in 0..width {
            part[i] = (buffer >> i & 1) as u8;
        }
        let mut store = Store::empty();
        store.words[0] = bits;
        let target = match self.machine.walk(target as u16, &mut store, &part[..width]) {
            Target::State(q) => q as u64,
            Target::Accept => self.states,
            Target::Reject => self.states + 1,
        };
        self.config(target, store.words[0], 1)
    }
}

// Two parsers whose pairs of configurations are numbers.
struct Pairs {
    first: Side,
    second: Side,
}

impl Pairs {
    fn count(&self) -> u64 {
        self.first.count * self.second.count
    }

    fn after(&self, pair: u64, bit: u64) -> u64 {
        let (a, b) = (pair / self.second.count, pair % self.second.count);
        self.first.after(a, bit) * self.second.count + self.second.after(b, bit)
    }

    fn is_bad(&self, pair: u64) -> bool {
        self.first.is_accept(pair / self.second.count) != self.second.is_accept(pair % self.second.count)
    }
}

// The room has three sets of a bit each, and then the queue: which pairs were seen, which entries of the queue were reached by an odd number of bits,
// and which are on the way back. The last is only cleared here.
struct Search<'a> {
    pairs: &'a Pairs,
    seen: &'a mut [u64],
    parity: &'a mut [u64],
    way: &'a mut [u64],
    queue: &'a mut [u64],
    len: usize,
}

impl<'a> Search<'a> {
    // none where there is not enough room
    fn new(pairs: &'a Pairs, room: &'a mut [u64]) -> Option<Search<'a>> {
        let count = pairs.count() as usize;
        let words = count.div_ceil(64);
        let slots = count.div_ceil(3);
        if room.len() < 3 * words + slots {
            return None;
        }
        let (seen, rest) = room.split_at_mut(words);
        let (parity, rest) = rest.split_at_mut(words);
        let (way, rest) = rest.split_at_mut(words);
        Some(Search { pairs, seen, parity, way, queue: &mut rest[..slots], len: 0 })
    }

    // the sets become empty, a turn for each word; what is left of the work
    fn clear(&mut self, work: u64) -> Option<u64> {
        let mut left = work;
        for word in self.seen.iter_mut().chain(&mut *self.parity).chain(&mut *self.way) {
            if left == 0 {
                return None;
            }
            left -= 1;
            *word = 0;
        }
        Some(left)
    }

    // three entries to a word: a pair, and in the lowest bit that by which it was reached
    fn entry(&self, i: usize) -> u64 {
        self.queue[i / 3] >> (21 * (i % 3)) & 0x1f_ffff
    }

    fn push(&mut self, pair: u64, bit: u64, odd: u64) {
        let i = self.len;
        let shift = 21 * (i % 3);
        self.queue[i / 3] = self.queue[i / 3] & !(0x1f_ffff << shift) | (2 * pair + bit) << shift;
        self.parity[i / 64] |= odd << (i % 64);
        self.len += 1;
    }

    // was it not seen before? Then it is now
    fn is_new(&mut self, pair: u64) -> bool {
        let (word, mask) = (pair as usize / 64, 1 << (pair % 64));
        let new = self.seen[word] & mask == 0;
        self.seen[word] |= mask;
        new
    }

    fn run(&mut self, first_start: u16, second_start: u16, work: u64) -> &'static str {
        let Some(mut work) = self.clear(work) else {
            return "neither";
        };
        let (first, second) = (&self.pairs.first, &self.pairs.second);
        for i in 0..1u64 << (first.header_bits + second.header_bits) {
            if work == 0 {
                return "neither";
            }
            work -= 1;
            let a = first.config(first_start as u64, i >> second.header_bits, 1);
            let b = second.config(second_start as u64, i & ((1 << second.header_bits) - 1), 1);
            let pair = a * second.count + b;
            if self.is_new(pair) {
                self.push(pair, 0, 0);
            }
        }
        let mut at = 0;
        while at < self.len {
            for bit in 0..2 {
                if work == 0 {
                    return "neither";
                }
                work -= 1;
                let pair = self.pairs.after(self.entry(at) >> 1, bit);
                if self.is_new(pair) {
                    let odd = self.parity[at / 64] >> (at % 64) & 1 ^ 1;
                    self.push(pair, bit, odd);
                    if self.pairs.is_bad(pair) {
                        return "unlike";
                    }
                }
            }
            at += 1;
        }
        "alike"
    }
}

fn main() -> ExitCode {
    let mut room = Vec::new();
    machine::answer_all(|mut request| {
        let Compare { first, second, first_start, second_start, work, room: wanted } = request.compare()?;
        let (Some(first), Some(second)) = (Side::new(first), Side::new(second)) else {
            return Some("neither");
        };
        let pairs = Pairs { first, second };
        if pairs.count() > MOST_PAIRS {
            return Some("neither");
        }
        let lent = wanted.min(MOST_ROOM) as usize;
        if room.len() < lent {
            room = vec![0; lent];
        }
        let Some(mut search) = Search::new(&pairs, &mut room[..lent]) else {
            return Some("neither");
        };
        Some(search.run(first_start, second_start, work))
    })
}
