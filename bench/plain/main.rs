//! A machine written by hand, for comparison: runs an accepted module and prints what
//! `x10clock run --module` prints.
//!
//!     rustc -C opt-level=3 --edition 2024 -o plain main.rs
//!     plain FILE [first|last|round]

mod json;
mod machine;
mod module;
mod set;

use machine::{Machine, Order};
use std::io::{self, Write};
use std::{env, fs};

fn main() -> io::Result<()> {
    let words: Vec<String> = env::args().collect();
    let order = match words.get(2).map(String::as_str) {
        None | Some("first") => Order::First,
        Some("last") => Order::Last,
        Some("round") => Order::Round,
        Some(word) => panic!("no order {word}"),
    };
    let module = module::read(&fs::read_to_string(&words[1])?);
    let mut machine = Machine::new(&module);
    machine.run(order);
    let mut out = io::BufWriter::new(io::stdout().lock());
    for number in &machine.printed {
        writeln!(out, "{number}")?;
    }
    writeln!(out, "ended steps {}", machine.steps)?;
    out.flush()
}
