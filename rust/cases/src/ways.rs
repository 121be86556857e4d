//! The ways from a row to those that it can go on to, by kinds, and where a table goes back on one.

use reference::table::{JUMP, RECV, SKIP};
use reference::{Row, Table};

/// How a row goes on.
#[derive(Clone, Copy, Debug, PartialEq, Eq)]
pub enum Way {
    /// To p+1, which is all that it can go on to.
    Next,
    /// A SKIP to p+1, and to p+1+n where n is not 0.
    SkipNear,
    SkipFar,
    /// A RECV likewise.
    RecvNear,
    RecvFar,
    /// A JUMP to p+1+n where n is not 0.
    Jump,
}

impl Way {
    pub const ALL: [Way; 6] =
        [Way::Next, Way::SkipNear, Way::SkipFar, Way::RecvNear, Way::RecvFar, Way::Jump];
}

/// The ways of a row at position p, each with where it leads.
pub fn ways(row: Row, p: usize) -> Vec<(Way, usize)> {
    let (near, far) = (p + 1, p + 1 + usize::from(row.n));
    match row.op {
        SKIP if near != far => vec![(Way::SkipNear, near), (Way::SkipFar, far)],
        RECV if near != far => vec![(Way::RecvNear, near), (Way::RecvFar, far)],
        JUMP if near != far => vec![(Way::Jump, far)],
        _ => vec![(Way::Next, near)],
    }
}

/// The positions of all rows that lead to others, and the ways.
pub fn ways_of_rows(rows: &[Row]) -> Vec<(usize, Way, usize)> {
    let all = rows.iter().enumerate().flat_map(|(p, &row)| {
        ways(row, p).into_iter().map(move |(way, position)| (p, way, position))
    });
    all.filter(|&(.., position)| position < rows.len()).collect()
}

/// A row that goes on to an earlier one: its position, the way, and which of its early and late is
/// above that of the other.
#[derive(Clone, Copy, Debug, PartialEq, Eq)]
pub struct Back {
    pub row: usize,
    pub way: Way,
    pub early: bool,
    pub late: bool,
}

/// Where an agent's rows go back, in order.
pub fn backs(rows: &[Row]) -> Vec<Back> {
    let all = ways_of_rows(rows).into_iter().map(|(p, way, position)| Back {
        row: p,
        way,
        early: rows[p].early > rows[position].early,
        late: rows[p].late > rows[position].late,
    });
    all.filter(|back| back.early || back.late).collect()
}

/// Whether this row's early or late is below that of the row before it, which document 01 refused.
pub fn is_earlier_than_before(rows: &[Row], i: usize) -> bool {
    i > 0 && (rows[i].early < rows[i - 1].early || rows[i].late < rows[i - 1].late)
}

/// Whether some row of the table is so.
pub fn has_earlier_row_below(table: &Table) -> bool {
    let has_one = |rows: &[Row]| (0..rows.len()).any(|i| is_earlier_than_before(rows, i));
    table.agents.iter().any(|agent| has_one(&agent.rows))
}

/// Whether some path from row 0 reaches this row.
pub fn is_reached(rows: &[Row], i: usize) -> bool {
    let mut reached = vec![false; rows.len()];
    reached[0] = true;
    // Every way leads downwards, so that rows are met after all that lead to them.
    for (p, _, position) in ways_of_rows(rows) {
        reached[position] |= reached[p];
    }
    reached[i]
}

#[cfg(test)]
mod tests {
    use super::*;
    use crate::rng::Rng;
    use crate::tables::{table, Size};

    #[test]
    fn the_ways_lead_to_what_a_row_can_go_on_to() {
        let rng = &mut Rng::new(1);
        let mut met = [false; Way::ALL.len()];
        for _ in 0..200 {
            for agent in table(rng, Size::Any).agents {
                for (p, row) in agent.rows.iter().enumerate() {
                    let mut positions = row.goes_on_to(p);
                    positions.dedup();
                    let ways = ways(*row, p);
                    assert_eq!(ways.iter().map(|way| way.1).collect::<Vec<_>>(), positions);
                    ways.iter().for_each(|way| met[way.0 as usize] = true);
                }
            }
        }
        assert_eq!(met, [true; Way::ALL.len()]);
    }

    #[test]
    fn where_rows_go_back_and_what_is_reached() {
        let row = |op, n, early, late| Row { op, n, early, late, ..Row::default() };
        // Row 1 is jumped over. Rows 0, 3 and 4 go back.
        let rows = [
            row(JUMP, 1, 5, 9),
            row(0, 0, 1, 2),
            row(SKIP, 1, 4, 9),
            row(RECV, 1, 5, 9),
            row(0, 0, 6, 9),
            row(0, 0, 5, 8),
        ];
        let back = |row, way, early, late| Back { row, way, early, late };
        let expected = [
            back(0, Way::Jump, true, false),
            back(3, Way::RecvFar, false, true),
            back(4, Way::Next, true, true),
        ];
        assert_eq!(backs(&rows), expected);
        let reached: Vec<bool> = (0..6).map(|i| is_reached(&rows, i)).collect();
        assert_eq!(reached, [true, false, true, true, true, true]);
    }
}
