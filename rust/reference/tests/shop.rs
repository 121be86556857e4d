//! The shop's files are what `examples/shop/README.md` says of them, and what is picked are the choices
//! that are stored as the lowest first.

use std::path::Path;

use reference::reader::table_of_text;
use reference::{State, Table};

/// Cargo runs a test in its package's folder.
fn file(name: &str) -> Vec<u8> {
    let path = Path::new("../../examples/shop").join(name);
    std::fs::read(&path).unwrap_or_else(|error| panic!("{}: {error}", path.display()))
}

fn table(name: &str) -> Table {
    table_of_text(&file(name)).unwrap()
}

fn choices(name: &str) -> Vec<(u32, u32)> {
    let text = String::from_utf8(file(name)).unwrap();
    let number = |digits: &str| u32::from_str_radix(digits, 16).unwrap();
    text.lines().map(|line| (number(&line[2..4]), number(&line[4..]))).collect()
}

/// The port that the power agent grants once the choices have brought all agents to their end, each
/// being the agent that `picked` names among those that can be run.
fn granted(table: &Table, choices: &[(u32, u32)], picked: fn(&[usize]) -> usize) -> u32 {
    let mut state = State::start(table);
    for &(agent, time) in choices {
        assert_eq!(agent as usize, picked(&state.ready(table)));
        assert_eq!(state.step(table, agent, time), 0);
    }
    assert_eq!(state.deadline(table), None);
    let (power, ports) = state.agents.split_last().unwrap();
    let powered: Vec<u32> =
        ports.iter().filter(|port| port.registers[3] == 1).map(|port| port.registers[0]).collect();
    assert_eq!(powered, [power.registers[0]]);
    power.registers[0]
}

#[test]
fn the_lowest_first_is_what_is_picked() {
    for (order, rows) in [("number-order", 86), ("text-order", 86)] {
        let table = table(&format!("{order}.table"));
        assert_eq!(table.agents.iter().map(|agent| agent.rows.len()).sum::<usize>(), rows);
        let mut state = State::start(&table);
        for choice in choices(&format!("{order}-lowest-first.choices")) {
            assert_eq!(state.picked(&table), Some(choice));
            assert_eq!(state.step(&table, choice.0, choice.1), 0);
        }
        assert_eq!(state.picked(&table), None);
    }
}

#[test]
fn which_socket_has_power() {
    for (order, socket) in [("number-order", 2), ("text-order", 10)] {
        let table = table(&format!("{order}.table"));
        assert_eq!(table.agents.len(), 13);
        let lowest = choices(&format!("{order}-lowest-first.choices"));
        let highest = choices(&format!("{order}-highest-first.choices"));
        assert_eq!(granted(&table, &lowest, |ready| ready[0]), socket);
        assert_eq!(granted(&table, &highest, |ready| ready[ready.len() - 1]), socket);
    }
}
