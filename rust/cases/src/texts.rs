//! The text of tables and of choices, good and damaged.

use reference::{Row, Table};

use crate::choices::Choice;
use crate::damage::{damage_row, damage_way};
use crate::lines::damage_text;
use crate::rng::Rng;

/// One line of a text.
#[derive(Clone)]
enum Line {
    Opens(u8, [u32; 4]),
    Row(u8, Row),
    End,
}

impl Line {
    fn write(&self, text: &mut Vec<u8>) {
        let line = match self {
            Line::Opens(agent, [r0, r1, r2, r3]) => {
                format!("00{agent:02X}{r0:08X}{r1:08X}{r2:08X}{r3:08X}\n")
            }
            Line::Row(agent, Row { op, x, y, n, k, early, late }) => {
                let code = format!("{op:02X}{x:02X}{y:02X}{n:02X}");
                format!("01{agent:02X}{code}{k:08X}{early:08X}{late:08X}\n")
            }
            Line::End => "FF\n".to_string(),
        };
        text.extend(line.as_bytes());
    }
}

fn lines(table: &Table) -> Vec<Line> {
    let mut lines = Vec::new();
    for (a, agent) in table.agents.iter().enumerate() {
        lines.push(Line::Opens(a as u8, agent.registers));
        lines.extend(agent.rows.iter().map(|row| Line::Row(a as u8, *row)));
    }
    lines.push(Line::End);
    lines
}

fn written(lines: &[Line]) -> Vec<u8> {
    let mut text = Vec::new();
    lines.iter().for_each(|line| line.write(&mut text));
    text
}

/// The text of a table.
pub fn text(table: &Table) -> Vec<u8> {
    written(&lines(table))
}

/// The lines `02` of choices. Agents above 255 have no such line; their low byte is taken.
pub fn choice_lines(choices: &[Choice]) -> Vec<u8> {
    choices
        .iter()
        .flat_map(|&(agent, time)| format!("02{:02X}{time:08X}\n", agent as u8).into_bytes())
        .collect()
}

/// The text of a table with one to three damages.
pub fn damaged(rng: &mut Rng, table: &Table) -> Vec<u8> {
    let mut lines = lines(table);
    let mut text = None;
    for _ in 0..rng.pick(&[1, 1, 1, 2, 3]) {
        match rng.below(16) {
            0..=3 => damage_one_row(rng, &mut lines),
            4..=6 => damage_order(rng, &mut lines),
            7..=9 => drop(damage_one_way(rng, &mut lines)),
            10 | 11 => damage_way_and_row(rng, &mut lines),
            _ => {
                let mut bytes = text.take().unwrap_or_else(|| written(&lines));
                damage_text(rng, &mut bytes);
                text = Some(bytes);
            }
        }
    }
    text.unwrap_or_else(|| written(&lines))
}

/// Where rows stand among these lines.
fn places_of_rows(lines: &[Line]) -> Vec<usize> {
    (0..lines.len()).filter(|&i| matches!(lines[i], Line::Row(..))).collect()
}

/// A field of one row becomes wrong, or only different: 4 to 7.
fn damage_one_row(rng: &mut Rng, lines: &mut [Line]) {
    let rows = places_of_rows(lines);
    if rows.is_empty() {
        return;
    }
    let at = rng.pick(&rows);
    let before = match at.checked_sub(1).map(|i| &lines[i]) {
        Some(Line::Row(_, row)) => *row,
        _ => Row::default(),
    };
    if let Line::Row(_, row) = &mut lines[at] {
        damage_row(rng, row, before);
    }
}

/// A row comes to go on to an earlier one of the rows around it: 7. Gives the line after these rows.
fn damage_one_way(rng: &mut Rng, lines: &mut [Line]) -> usize {
    let mut places = places_of_rows(lines);
    let has_n = |at: usize| matches!(&lines[at], Line::Row(_, row) if row.n != 0);
    if places.iter().any(|&at| has_n(at)) {
        places.retain(|&at| has_n(at));
    }
    if places.is_empty() {
        return lines.len();
    }
    let at = rng.pick(&places);
    let is_row = |line: &Line| matches!(line, Line::Row(..));
    let begin = lines[..at].iter().rposition(|line| !is_row(line)).map_or(0, |i| i + 1);
    let end = lines[at..].iter().position(|line| !is_row(line)).map_or(lines.len(), |i| at + i);
    let mut rows: Vec<&mut Row> = lines[begin..end]
        .iter_mut()
        .filter_map(|line| match line {
            Line::Row(_, row) => Some(row),
            _ => None,
        })
        .collect();
    let mut damaged: Vec<Row> = rows.iter().map(|row| **row).collect();
    damage_way(rng, &mut damaged);
    rows.iter_mut().zip(damaged).for_each(|(row, damaged)| **row = damaged);
    end
}

/// A row comes to go on to an earlier one, and another row, mostly a later one of this agent or
/// another, is refused with 4, 5 or 6, which is told before.
fn damage_way_and_row(rng: &mut Rng, lines: &mut [Line]) {
    let end = damage_one_way(rng, lines);
    let mut places = places_of_rows(lines);
    let is_of_another = rng.percent(50);
    if places.iter().any(|&at| at >= end) && is_of_another {
        places.retain(|&at| at >= end);
    } else {
        // The last rows of the same agent.
        places.retain(|&at| at < end && at + 3 >= end);
    }
    if places.is_empty() {
        return;
    }
    if let Line::Row(_, row) = &mut lines[rng.pick(&places)] {
        match rng.below(3) {
            0 => row.y = 4,
            1 => *row = Row { op: 0x11, n: 31, early: row.early, late: row.late, ..Row::default() },
            _ => row.early = row.late,
        }
    }
}

/// Lines change their number, their place or their agent: 3.
fn damage_order(rng: &mut Rng, lines: &mut Vec<Line>) {
    if lines.is_empty() {
        return;
    }
    let at = rng.below(lines.len());
    let other = rng.below(lines.len());
    match rng.below(11) {
        0 => drop(lines.remove(at)),
        1 => lines.insert(at, lines[at].clone()),
        2 => lines.swap(at, other),
        3 => lines.insert(at, Line::End),
        4 => drop(lines.pop()),
        5 => lines.truncate(at),
        6 => lines.push(lines[at].clone()),
        7 => lines.retain(|line| !matches!(line, Line::Opens(0, _))),
        8 => {
            // An agent is left without rows.
            let agent = rng.below(16) as u8;
            lines.retain(|line| !matches!(line, Line::Row(a, _) if *a == agent));
        }
        9 => too_many(rng, lines),
        _ => match &mut lines[at] {
            Line::Opens(agent, _) | Line::Row(agent, _) => {
                *agent = rng.pick(&[agent.wrapping_add(1), agent.wrapping_sub(1), 16, 255]);
            }
            Line::End => {}
        },
    }
}

/// Up to a 33rd row of some agent, or up to a 17th agent, or one short of it.
fn too_many(rng: &mut Rng, lines: &mut Vec<Line>) {
    let Some(at) = lines.iter().rposition(|line| matches!(line, Line::Row(..))) else {
        return;
    };
    let Line::Row(agent, row) = lines[at] else { return };
    if rng.percent(50) {
        let rows =
            lines.iter().filter(|line| matches!(line, Line::Row(a, _) if *a == agent)).count();
        let wanted = rng.pick(&[32, 33]);
        for _ in rows..wanted {
            lines.insert(at + 1, Line::Row(agent, Row { op: 0x11, x: 0, y: 0, n: 0, k: 0, ..row }));
        }
    } else {
        let wanted = rng.pick(&[16, 17]);
        let mut at = at + 1;
        for next in agent.saturating_add(1)..wanted {
            lines.insert(at, Line::Opens(next, [0; 4]));
            lines.insert(at + 1, Line::Row(next, row));
            at += 2;
        }
    }
}
