//! A machine of activities, clocks and finishes. A step is that of docs/DEFINITIONS.md.
//!
//! Local steps, which nobody else can see, are carried out many at once. A clock is a phase and
//! two counters. Each activity has its registrations, and waits on the list of one clock at most.
//! A finish is a counter of those whom it governs.

use crate::module::{Args, Module, Op, Unit};
use crate::set::Set;
use std::mem;

#[derive(Clone, Copy)]
pub enum Order {
    First,
    Last,
    Round,
}

/// A registration on a clock.
#[derive(Clone, Copy)]
struct Registration {
    clock: u32,
    /// The phase in which the activity resumed the clock, or `OPEN`.
    resumed: u64,
}

const OPEN: u64 = u64::MAX;

struct Clock {
    phase: u64,
    registered: u32,
    /// How many of the registered ones haven't resumed it in this phase.
    pending: u32,
    /// Arrived activities that wait for it.
    waiting: Vec<u32>,
}

struct Finish {
    /// Who opened it; nobody, of the one that governs main.
    owner: Option<u32>,
    /// How many of those whom it governs haven't ended.
    running: u32,
}

#[derive(Clone, Copy)]
struct Frame {
    unit: u16,
    place: u16,
    base: u32,
}

#[derive(Clone, Copy, PartialEq)]
enum Status {
    Running,
    Arrived,
    Ended,
}

struct Activity {
    status: Status,
    frame: Frame,
    callers: Vec<Frame>,
    /// The slots of all frames, the last one's last.
    slots: Vec<i64>,
    registrations: Vec<Registration>,
    governor: u32,
    /// The finishes that it has open.
    open: Vec<u32>,
}

impl Activity {
    fn slot(&self, slot: u16) -> i64 {
        self.slots[self.frame.base as usize + slot as usize]
    }

    fn put(&mut self, slot: u16, number: i64) {
        self.slots[self.frame.base as usize + slot as usize] = number;
    }

    fn call(&mut self, number: u16, callee: &Unit, args: &[u16]) {
        self.callers.push(self.frame);
        let old = self.frame.base as usize;
        let base = self.slots.len();
        self.slots.resize(base + callee.slots, 0);
        for (i, slot) in args.iter().enumerate() {
            self.slots[base + i] = self.slots[old + *slot as usize];
        }
        self.frame = Frame { unit: number, place: 0, base: base as u32 };
    }

    fn back(&mut self, caller: Frame) {
        self.slots.truncate(self.frame.base as usize);
        self.frame = Frame { place: caller.place + 1, ..caller };
    }

    /// Local steps, so many at most; how many they were.
    fn run(&mut self, units: &[Unit], most: u64) -> u64 {
        let mut left = most;
        loop {
            let unit = &units[self.frame.unit as usize];
            let slots = &mut self.slots[self.frame.base as usize..];
            let mut place = self.frame.place as usize;
            left = straight(&unit.code, &mut place, slots, left);
            self.frame.place = place as u16;
            if left == 0 {
                return most;
            }
            match unit.code[place] {
                Op::Call { unit: callee, args } => {
                    self.call(callee, &units[callee as usize], unit.args(args));
                }
                Op::Ret => match self.callers.pop() {
                    Some(caller) => self.back(caller),
                    None => return most - left,
                },
                _ => return most - left,
            }
            left -= 1;
        }
    }
}

/// Steps within one frame, so many at most; how many are left.
fn straight(code: &[Op], at: &mut usize, slots: &mut [i64], most: u64) -> u64 {
    let (mut place, mut left) = (*at, most);
    while left > 0 {
        let is_taken = |holds: bool, target: u16| if holds { place + 1 } else { target as usize };
        place = match code[place] {
            Op::Lit { to, number } => {
                slots[to as usize] = number;
                place + 1
            }
            Op::Copy { to, from } => {
                slots[to as usize] = slots[from as usize];
                place + 1
            }
            Op::Add { to, left, right } => {
                slots[to as usize] = slots[left as usize].wrapping_add(slots[right as usize]);
                place + 1
            }
            Op::Sub { to, left, right } => {
                slots[to as usize] = slots[left as usize].wrapping_sub(slots[right as usize]);
                place + 1
            }
            Op::Mul { to, left, right } => {
                slots[to as usize] = slots[left as usize].wrapping_mul(slots[right as usize]);
                place + 1
            }
            Op::UnlessEq { left, right, target } => {
                is_taken(slots[left as usize] == slots[right as usize], target)
            }
            Op::UnlessNe { left, right, target } => {
                is_taken(slots[left as usize] != slots[right as usize], target)
            }
            Op::UnlessLt { left, right, target } => {
                is_taken(slots[left as usize] < slots[right as usize], target)
            }
            Op::UnlessLe { left, right, target } => {
                is_taken(slots[left as usize] <= slots[right as usize], target)
            }
            Op::Jump { target } => target as usize,
            Op::Next { slot, begin, high } => {
                let turn = &mut slots[slot as usize];
                if *turn < high {
                    *turn += 1;
                    begin as usize
                } else {
                    place + 1
                }
            }
            _ => break,
        };
        left -= 1;
    }
    *at = place;
    left
}

pub struct Machine<'m> {
    module: &'m Module,
    activities: Vec<Activity>,
    clocks: Vec<Clock>,
    finishes: Vec<Finish>,
    closed: Vec<u32>,
    shared: Vec<i64>,
    /// Those who can take a step.
    enabled: Set,
    pub printed: Vec<i64>,
    pub steps: u64,
}

impl<'m> Machine<'m> {
    pub fn new(module: &'m Module) -> Machine<'m> {
        let mut machine = Machine {
            module,
            activities: Vec::new(),
            clocks: Vec::new(),
            finishes: vec![Finish { owner: None, running: 0 }],
            closed: Vec::new(),
            shared: module.shared.clone(),
            enabled: Set::new(),
            printed: Vec::new(),
            steps: 0,
        };
        machine.start(0, 0, vec![0; module.units[0].slots], Vec::new());
        machine
    }

    /// Runs until nobody can take a step.
    pub fn run(&mut self, order: Order) {
        let mut before = None;
        while let Some(who) = self.chosen(order, before) {
            self.turn(who, self.is_alone(order, who));
            before = Some(who);
        }
    }

    fn chosen(&self, order: Order, before: Option<usize>) -> Option<usize> {
        match (order, before) {
            (Order::First, _) | (Order::Round, None) => self.enabled.least(),
            (Order::Last, _) => self.enabled.greatest(),
            (Order::Round, Some(who)) => {
                self.enabled.least_from(who + 1).or_else(|| self.enabled.least())
            }
        }
    }

    /// Whether the order would choose the same one again, as long as nobody else is enabled.
    fn is_alone(&self, order: Order, who: usize) -> bool {
        match order {
            Order::First | Order::Last => true,
            Order::Round => {
                self.enabled.least() == Some(who) && self.enabled.least_from(who + 1).is_none()
            }
        }
    }

    /// One step of an activity. Where it would be chosen again, the steps behind it too, up to one
    /// that may change who else can step.
    fn turn(&mut self, who: usize, is_alone: bool) {
        let most = if is_alone { u64::MAX } else { 1 };
        loop {
            let mut goes_on = is_alone;
            if self.activities[who].status == Status::Arrived {
                self.pass(who);
            } else {
                let count = self.activities[who].run(&self.module.units, most);
                self.steps += count;
                if count == 0 {
                    goes_on &= self.visible(who);
                }
            }
            if self.is_kept(who) {
                self.enabled.remove(who);
                return;
            }
            if !goes_on {
                return;
            }
        }
    }

    fn op(&self, who: usize) -> Op {
        let frame = self.activities[who].frame;
        self.module.units[frame.unit as usize].code[frame.place as usize]
    }

    /// Whether it stands at an `endfinish` and somebody under the finish hasn't ended.
    fn is_kept(&self, who: usize) -> bool {
        let activity = &self.activities[who];
        activity.status == Status::Running
            && matches!(self.op(who), Op::EndFinish)
            && activity.open.last().is_some_and(|f| self.finishes[*f as usize].running > 0)
    }

    fn start(&mut self, governor: u32, unit: u16, slots: Vec<i64>, on: Vec<Registration>) {
        self.finishes[governor as usize].running += 1;
        self.enabled.insert(self.activities.len());
        self.activities.push(Activity {
            status: Status::Running,
            frame: Frame { unit, place: 0, base: 0 },
            callers: Vec::new(),
            slots,
            registrations: on,
            governor,
            open: Vec::new(),
        });
    }

    /// A step that others see, of a running activity. The answer is false where it may have changed
    /// who else can step.
    fn visible(&mut self, who: usize) -> bool {
        self.steps += 1;
        let op = self.op(who);
        let activity = &mut self.activities[who];
        if !matches!(op, Op::Advance | Op::Ret) {
            activity.frame.place += 1;
        }
        match op {
            Op::Make { slot } => {
                activity.put(slot, self.clocks.len() as i64);
                let clock = self.clocks.len() as u32;
                activity.registrations.push(Registration { clock, resumed: OPEN });
                self.clocks.push(Clock {
                    phase: 0,
                    registered: 1,
                    pending: 1,
                    waiting: Vec::new(),
                });
            }
            Op::Resume { slot } => {
                let clock = activity.slot(slot) as u32;
                let mut on = activity.registrations.iter_mut().rev();
                let found = on.find(|on| on.clock == clock).expect("registered");
                resume(&mut self.clocks, found);
                self.settle(clock);
            }
            Op::Drop { slot } => {
                let clock = activity.slot(slot) as u32;
                let on = &mut activity.registrations;
                let at = on.iter().rposition(|on| on.clock == clock).expect("registered");
                let registration = on.swap_remove(at);
                self.leave(registration);
            }
            Op::Advance => self.arrive(who),
            Op::Finish => {
                let finish = self.finish_of(who as u32);
                self.activities[who].open.push(finish);
            }
            Op::EndFinish => self.closed.push(activity.open.pop().expect("an open finish")),
            Op::Spawn { unit, args } => self.spawn(who, unit, args),
            Op::Print { slot } => self.printed.push(activity.slot(slot)),
            Op::Get { to, shared } => activity.put(to, self.shared[shared as usize]),
            Op::Put { shared, from } => self.shared[shared as usize] = activity.slot(from),
            Op::AddTo { shared, from } => {
                let cell = &mut self.shared[shared as usize];
                *cell = cell.wrapping_add(activity.slot(from));
            }
            Op::Ret => self.end(who),
            _ => unreachable!("a local step"),
        }
        !matches!(
            op,
            Op::Resume { .. } | Op::Drop { .. } | Op::Advance | Op::Spawn { .. } | Op::Ret
        )
    }

    /// A new finish, by the number of one that was closed, if there is any.
    fn finish_of(&mut self, owner: u32) -> u32 {
        let finish = Finish { owner: Some(owner), running: 0 };
        if let Some(number) = self.closed.pop() {
            self.finishes[number as usize] = finish;
            return number;
        }
        self.finishes.push(finish);
        self.finishes.len() as u32 - 1
    }

    fn spawn(&mut self, who: usize, number: u16, args: Args) {
        let unit = &self.module.units[number as usize];
        let starter = &self.activities[who];
        let mut slots = Vec::with_capacity(unit.slots);
        let mut on = Vec::new();
        let given = self.module.units[starter.frame.unit as usize].args(args);
        for (slot, takes_clock) in given.iter().zip(&unit.takes_clock) {
            let value = starter.slot(*slot);
            slots.push(value);
            if *takes_clock {
                let mut held = starter.registrations.iter().rev();
                on.push(*held.find(|on| on.clock as i64 == value).expect("registered"));
            }
        }
        slots.resize(unit.slots, 0);
        let governor = starter.open.last().copied().unwrap_or(starter.governor);
        for registration in &on {
            let clock = &mut self.clocks[registration.clock as usize];
            clock.registered += 1;
            clock.pending += u32::from(registration.resumed != clock.phase);
        }
        self.start(governor, number, slots, on);
    }

    /// The end of an activity: it leaves its clocks, and the finish that governs it.
    fn end(&mut self, who: usize) {
        let activity = &mut self.activities[who];
        activity.status = Status::Ended;
        activity.slots = Vec::new();
        activity.callers = Vec::new();
        activity.open = Vec::new();
        let governor = activity.governor as usize;
        self.enabled.remove(who);
        for registration in mem::take(&mut activity.registrations) {
            self.leave(registration);
        }
        let finish = &mut self.finishes[governor];
        finish.running -= 1;
        if finish.running == 0
            && let Some(owner) = finish.owner
            && matches!(self.op(owner as usize), Op::EndFinish)
            && self.activities[owner as usize].open.last() == Some(&(governor as u32))
        {
            self.enabled.insert(owner as usize);
        }
    }

    /// The first half of an `advance`.
    fn arrive(&mut self, who: usize) {
        let activity = &mut self.activities[who];
        activity.status = Status::Arrived;
        for registration in &mut activity.registrations {
            resume(&mut self.clocks, registration);
        }
        for i in 0..activity.registrations.len() {
            self.settle(self.activities[who].registrations[i].clock);
        }
        self.rest(who);
    }

    /// The second half of an `advance`.
    fn pass(&mut self, who: usize) {
        self.steps += 1;
        let activity = &mut self.activities[who];
        activity.status = Status::Running;
        activity.frame.place += 1;
        for registration in &mut activity.registrations {
            registration.resumed = OPEN;
        }
    }

    /// Has an arrived activity wait for a clock that it has resumed and that hasn't advanced since,
    /// or go on where there is none.
    fn rest(&mut self, who: usize) {
        let mut on = self.activities[who].registrations.iter();
        match on.find(|on| on.resumed == self.clocks[on.clock as usize].phase) {
            Some(on) => {
                self.clocks[on.clock as usize].waiting.push(who as u32);
                self.enabled.remove(who);
            }
            None => self.enabled.insert(who),
        }
    }

    /// Somebody has left the clock.
    fn leave(&mut self, registration: Registration) {
        let clock = &mut self.clocks[registration.clock as usize];
        clock.registered -= 1;
        clock.pending -= u32::from(registration.resumed != clock.phase);
        self.settle(registration.clock);
    }

    /// The clock advances if everybody who is registered has resumed it.
    fn settle(&mut self, number: u32) {
        let clock = &mut self.clocks[number as usize];
        if clock.pending > 0 || clock.registered == 0 {
            return;
        }
        clock.phase += 1;
        clock.pending = clock.registered;
        let mut waiting = mem::take(&mut clock.waiting);
        for who in waiting.drain(..) {
            self.rest(who as usize);
        }
        self.clocks[number as usize].waiting = waiting;
    }
}

/// An open registration is resumed in this phase of its clock; any other stays.
fn resume(clocks: &mut [Clock], registration: &mut Registration) {
    if registration.resumed == OPEN {
        let clock = &mut clocks[registration.clock as usize];
        registration.resumed = clock.phase;
        clock.pending -= 1;
    }
}
