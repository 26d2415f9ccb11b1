// Parsing in plain Rust: reads a file of requests to parse and prints yes or no for each.
mod machine;

use machine::{Machine, Parser, Reader, Store, Target};
use std::process::ExitCode;

struct Parse {
    parser: Parser,
    headers: Vec<Vec<u8>>,
    start: u16,
    input: Vec<u8>,
}

impl Machine {
    fn load(&self, headers: &[Vec<u8>]) -> Store {
        let mut store = Store::empty();
        for (h, bits) in headers.iter().enumerate() {
            self.put(h as u16, &mut store, bits);
        }
        store
    }

    fn accepts(&self, store: &mut Store, start: u16, input: &[u8]) -> bool {
        let mut target = Target::State(start);
        let mut rest = input;
        loop {
            match target {
                Target::State(q) => {
                    let n = self.widths[q as usize];
                    if rest.len() < n {
                        return false;
                    }
                    let (part, after) = rest.split_at(n);
                    target = self.walk(q, store, part);
                    rest = after;
                }
                Target::Accept => return rest.is_empty(),
                Target::Reject => return false,
            }
        }
    }
}

impl Reader<'_> {
    fn parse(&mut self) -> Option<Parse> {
        if self.u8()? != 0 {
            return None;
        }
        let parser = self.parser()?;
        let headers = self.many(Self::bits)?;
        let start = self.u16()?;
        let n = self.u32()?;
        let input = self.row(n as usize)?;
        self.rest.is_empty().then_some(Parse { parser, headers, start, input })
    }
}

fn accepted(mut request: Reader) -> Option<&'static str> {
    let Parse { parser, headers, start, input } = request.parse()?;
    let machine = Machine::new(parser);
    let mut store = machine.load(&headers);
    Some(if machine.accepts(&mut store, start, &input) { "yes" } else { "no" })
}

fn main() -> ExitCode {
    machine::answer_all(accepted)
}
