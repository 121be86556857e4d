//! The words of a state that is only read, and whether they fit a table.

use crate::table::{Table, SEND};
use crate::{any_set, AGENTS, LAST_TIME, ROWS, STATE_WORDS};

/// The parts of a state's words.
pub struct View<'a> {
    pub clock: u32,
    pub positions: &'a [u32; AGENTS],
    registers: &'a [[u32; 4]; AGENTS],
    marks: &'a [[u32; ROWS]; AGENTS],
    values: &'a [[u32; ROWS]; AGENTS],
}

impl<'a> View<'a> {
    pub fn of(words: &'a [u32; STATE_WORDS]) -> View<'a> {
        let (&clock, rest) = words.split_first().unwrap();
        let (positions, rest) = rest.split_at(AGENTS);
        let (registers, rest) = rest.split_at(4 * AGENTS);
        let (marks, values) = rest.split_at(ROWS * AGENTS);
        View {
            clock,
            positions: positions.try_into().unwrap(),
            registers: registers.as_chunks().0.try_into().unwrap(),
            marks: marks.as_chunks().0.try_into().unwrap(),
            values: values.as_chunks().0.try_into().unwrap(),
        }
    }

    pub fn fits(&self, table: &Table) -> bool {
        let agents = table.agents;
        if self.clock.wrapping_sub(1) >= LAST_TIME
            || any_set(&self.positions[agents..])
            || any_set(self.registers[agents..].as_flattened())
            || any_set(self.marks[agents..].as_flattened())
            || any_set(self.values[agents..].as_flattened())
        {
            return false;
        }
        for (a, &count) in table.counts[..agents].iter().enumerate() {
            let position = self.positions[a];
            if position > count {
                return false;
            }
            let passed = position as usize;
            let rows = table.places(a);
            if position < count && self.clock > rows[passed][3] {
                return false;
            }
            let (marks, no_marks) = self.marks[a].split_at(passed);
            let (values, no_values) = self.values[a].split_at(passed);
            let mut bad = any_set(no_marks) | any_set(no_values);
            for ((&mark, &value), &[code, ..]) in marks.iter().zip(values).zip(rows) {
                let marked = (mark == 1) & (code >> 24 == SEND);
                let unmarked = (mark == 0) & (value == 0);
                bad |= !(marked | unmarked);
            }
            if bad {
                return false;
            }
        }
        true
    }
}
