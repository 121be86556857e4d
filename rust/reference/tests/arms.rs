//! The files of `examples/arms` are what its README says of them.

use std::path::Path;

use reference::reader::{lines, table_of_text};
use reference::reply::WINDOW_GOES_BACK;
use reference::{trace, Row, State};

/// Cargo runs a test in its package's folder.
fn file(name: &str) -> String {
    let path = Path::new("../../examples/arms").join(name);
    std::fs::read_to_string(&path).unwrap_or_else(|error| panic!("{}: {error}", path.display()))
}

/// Demands that the README shows the trace of this table and these choices.
fn assert_shown(table: &str, choices: &str) {
    let output = trace((table.to_string() + choices).as_bytes());
    let shown = format!("```\n{}", String::from_utf8(output).unwrap());
    assert!(file("README.md").contains(&shown), "not in the README: {shown}");
}

#[test]
fn each_arm_is_run_in_the_same_time() {
    let table = file("arms.table");
    assert_shown(&table, &file("power.choices"));
    // Register 0 becomes 0.
    let without_power = table.replacen('1', "0", 1);
    assert_shown(&without_power, &file("no-power.choices"));
    let rows = &table_of_text(table.as_bytes()).unwrap().agents[0].rows;
    let window = |i: usize| (rows[i].early, rows[i].late);
    assert_eq!((window(1), window(2)), (window(4), window(5)));
}

#[test]
fn what_is_picked_runs_each_arm_as_its_choices_do() {
    let table = file("arms.table");
    let without_power = table.replacen('1', "0", 1);
    for (text, choices) in [(table, "power.choices"), (without_power, "no-power.choices")] {
        let table = table_of_text(text.as_bytes()).unwrap();
        let mut state = State::start(&table);
        let mut picked = String::new();
        while let Some((agent, time)) = state.picked(&table) {
            assert_eq!(state.step(&table, agent, time), 0);
            picked += &format!("02{agent:02X}{time:08X}\n");
        }
        assert_eq!(picked, file(choices));
    }
}

#[test]
fn document_01_refused_line_6() {
    let read = lines(file("arms.table").as_bytes()).ok().unwrap();
    let rows = &read.table.agents[0].rows;
    let is_earlier = |row: &Row, before: &Row| row.early < before.early || row.late < before.late;
    let refused = (1..rows.len()).find(|&i| is_earlier(&rows[i], &rows[i - 1]));
    assert_eq!(refused.map(|i| read.row_lines[0][i]), Some(6));
}

#[test]
fn what_follows_both_arms_is_not_before_them() {
    let table = file("arms.table").replace("0000001F", "00000013");
    assert_eq!(table_of_text(table.as_bytes()), Err((WINDOW_GOES_BACK, 5)));
    assert_shown(&table, "");
}
