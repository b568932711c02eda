//! Modules, decoded to instructions of 16 bytes. Only modules that `x10clock check` accepts are
//! read: nothing is checked again.

use crate::json::{self, Value};

pub type Slot = u16;
pub type Place = u16;

/// The slots that a `call` or `spawn` hands on: a piece of the unit's list of arguments.
#[derive(Clone, Copy)]
pub struct Args {
    start: u32,
    count: u16,
}

#[derive(Clone, Copy)]
pub enum Op {
    /// `lit`, and the `for` of a loop.
    Lit {
        to: Slot,
        number: i64,
    },
    Copy {
        to: Slot,
        from: Slot,
    },
    Add {
        to: Slot,
        left: Slot,
        right: Slot,
    },
    Sub {
        to: Slot,
        left: Slot,
        right: Slot,
    },
    Mul {
        to: Slot,
        left: Slot,
        right: Slot,
    },
    UnlessEq {
        left: Slot,
        right: Slot,
        target: Place,
    },
    UnlessNe {
        left: Slot,
        right: Slot,
        target: Place,
    },
    UnlessLt {
        left: Slot,
        right: Slot,
        target: Place,
    },
    UnlessLe {
        left: Slot,
        right: Slot,
        target: Place,
    },
    Jump {
        target: Place,
    },
    Next {
        slot: Slot,
        begin: Place,
        high: i64,
    },
    Call {
        unit: u16,
        args: Args,
    },
    Make {
        slot: Slot,
    },
    Resume {
        slot: Slot,
    },
    Drop {
        slot: Slot,
    },
    Advance,
    Finish,
    EndFinish,
    Spawn {
        unit: u16,
        args: Args,
    },
    Print {
        slot: Slot,
    },
    Get {
        to: Slot,
        shared: u16,
    },
    Put {
        shared: u16,
        from: Slot,
    },
    AddTo {
        shared: u16,
        from: Slot,
    },
    Ret,
}

pub struct Unit {
    pub slots: usize,
    pub code: Vec<Op>,
    /// Whether a parameter takes a clock.
    pub takes_clock: Vec<bool>,
    args: Vec<Slot>,
}

impl Unit {
    pub fn args(&self, args: Args) -> &[Slot] {
        &self.args[args.start as usize..][..args.count as usize]
    }
}

pub struct Module {
    pub shared: Vec<i64>,
    pub units: Vec<Unit>,
}

pub fn read(text: &str) -> Module {
    let value = json::read(text);
    Module {
        shared: value.at("shared").list().iter().map(Value::number).collect(),
        units: value.at("units").list().iter().map(unit).collect(),
    }
}

fn unit(value: &Value) -> Unit {
    let code = value.at("code").list();
    let mut args = Vec::new();
    Unit {
        slots: value.at("slots").number() as usize,
        takes_clock: value.at("params").text().bytes().map(|letter| letter == b'c').collect(),
        code: code.iter().map(|instr| decode(instr.list(), code, &mut args)).collect(),
        args,
    }
}

/// An instruction of this code. The slots that it hands on are put behind the arguments.
fn decode(instr: &[Value], code: &[Value], args: &mut Vec<Slot>) -> Op {
    let n = |i: usize| instr[i].number() as u16;
    match instr[0].text() {
        "lit" | "for" => Op::Lit { to: n(1), number: instr[2].number() },
        "copy" => Op::Copy { to: n(1), from: n(2) },
        "add" => Op::Add { to: n(1), left: n(2), right: n(3) },
        "sub" => Op::Sub { to: n(1), left: n(2), right: n(3) },
        "mul" => Op::Mul { to: n(1), left: n(2), right: n(3) },
        "unless" => branch(instr[1].text(), n(2), n(3), n(4)),
        "jump" => Op::Jump { target: n(1) },
        "next" => {
            let opening = code[n(1) as usize].list();
            Op::Next {
                slot: opening[1].number() as u16,
                begin: n(1) + 1,
                high: opening[3].number(),
            }
        }
        "make" => Op::Make { slot: n(1) },
        "resume" => Op::Resume { slot: n(1) },
        "drop" => Op::Drop { slot: n(1) },
        "advance" => Op::Advance,
        "finish" => Op::Finish,
        "endfinish" => Op::EndFinish,
        "call" => Op::Call { unit: n(1), args: handed_on(&instr[2], args) },
        "spawn" => Op::Spawn { unit: n(1), args: handed_on(&instr[2], args) },
        "print" => Op::Print { slot: n(1) },
        "get" => Op::Get { to: n(1), shared: n(2) },
        "put" => Op::Put { shared: n(1), from: n(2) },
        "addto" => Op::AddTo { shared: n(1), from: n(2) },
        "ret" => Op::Ret,
        name => panic!("no instruction {name}"),
    }
}

fn branch(comparison: &str, left: Slot, right: Slot, target: Place) -> Op {
    match comparison {
        "eq" => Op::UnlessEq { left, right, target },
        "ne" => Op::UnlessNe { left, right, target },
        "lt" => Op::UnlessLt { left, right, target },
        "le" => Op::UnlessLe { left, right, target },
        "gt" => Op::UnlessLt { left: right, right: left, target },
        "ge" => Op::UnlessLe { left: right, right: left, target },
        name => panic!("no comparison {name}"),
    }
}

fn handed_on(slots: &Value, args: &mut Vec<Slot>) -> Args {
    let start = args.len() as u32;
    args.extend(slots.list().iter().map(|slot| slot.number() as u16));
    Args { start, count: slots.list().len() as u16 }
}
