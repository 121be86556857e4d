//! The optimised implementation as a board, and boards with a fault each.

use cases::suite::Kind;
use cases::{compare, Board, Plan};

pub struct Quick;

impl Board for Quick {
    fn read(&self, text: &[u8], table: &mut [u32]) -> (u32, u32) {
        quick::read(text, table)
    }
    fn write(&self, table: &[u32], text: &mut [u8]) -> (u32, u32) {
        quick::write(table, text)
    }
    fn check(&self, table: &[u32]) -> u32 {
        quick::check(table)
    }
    fn start(&self, table: &[u32], state: &mut [u32]) -> u32 {
        quick::start(table, state)
    }
    fn pick(&self, table: &[u32], state: &[u32]) -> Picked {
        quick::pick(table, state)
    }
    fn step(&self, table: &[u32], state: &mut [u32], agent: u32, time: u32) -> u32 {
        quick::step(table, state, agent, time)
    }
    fn run(&self, table: &[u32], state: &mut [u32], choices: &[u32]) -> (u32, u32) {
        quick::run(table, state, choices)
    }
    fn trace(&self, input: &[u8]) -> Vec<u8> {
        let mut output = [0; quick::OUTPUT_BYTES];
        let length = quick::trace(input, &mut output);
        output[..length].to_vec()
    }
}

/// A reply with a line, a length or a count.
pub type Told = (u32, u32);
/// A reply with an agent and a time.
pub type Picked = (u32, u32, u32);

type Step<'f> = dyn Fn(&[u32], &mut [u32], u32, u32) -> u32 + 'f;
type Run<'f> = dyn Fn(&[u32], &mut [u32], &[u32]) -> Told + 'f;

/// A board with one fault, laid over the good one.
pub struct Faulty<'f> {
    pub read: &'f dyn Fn(&[u8], &mut [u32]) -> Told,
    pub write: &'f dyn Fn(&[u32], &mut [u8]) -> Told,
    pub check: &'f dyn Fn(&[u32]) -> u32,
    pub start: &'f dyn Fn(&[u32], &mut [u32]) -> u32,
    pub pick: &'f dyn Fn(&[u32], &[u32]) -> Picked,
    pub step: &'f Step<'f>,
    pub run: &'f Run<'f>,
    pub trace: &'f dyn Fn(&[u8]) -> Vec<u8>,
}

pub const GOOD: Faulty = Faulty {
    read: &quick::read,
    write: &quick::write,
    check: &quick::check,
    start: &quick::start,
    pick: &quick::pick,
    step: &quick::step,
    run: &quick::run,
    trace: &|input| Quick.trace(input),
};

impl Board for Faulty<'_> {
    fn read(&self, text: &[u8], table: &mut [u32]) -> (u32, u32) {
        (self.read)(text, table)
    }
    fn write(&self, table: &[u32], text: &mut [u8]) -> (u32, u32) {
        (self.write)(table, text)
    }
    fn check(&self, table: &[u32]) -> u32 {
        (self.check)(table)
    }
    fn start(&self, table: &[u32], state: &mut [u32]) -> u32 {
        (self.start)(table, state)
    }
    fn pick(&self, table: &[u32], state: &[u32]) -> Picked {
        (self.pick)(table, state)
    }
    fn step(&self, table: &[u32], state: &mut [u32], agent: u32, time: u32) -> u32 {
        (self.step)(table, state, agent, time)
    }
    fn run(&self, table: &[u32], state: &mut [u32], choices: &[u32]) -> (u32, u32) {
        (self.run)(table, state, choices)
    }
    fn trace(&self, input: &[u8]) -> Vec<u8> {
        (self.trace)(input)
    }
}

/// A line by its number, with its newline where it has one.
#[allow(dead_code)] // Boards that write have no line told.
pub fn line_of(text: &[u8], number: u32) -> Option<&[u8]> {
    text.split_inclusive(|&byte| byte == b'\n').nth(number as usize - 1)
}

pub fn is_found(fault: &str, board: &Faulty, kind: Kind) {
    let plan = Plan(vec![(kind, 12_000)]);
    assert!(compare(board, &plan, 1).is_err(), "not found: {fault}");
}
