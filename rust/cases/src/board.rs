//! What is compared with the reference.

/// An implementation of the papers' calls and of their trace program.
pub trait Board {
    /// Reads a text: reply and line.
    fn read(&self, text: &[u8], table: &mut [u32]) -> (u32, u32);
    /// Writes a table's text: reply and length.
    fn write(&self, table: &[u32], text: &mut [u8]) -> (u32, u32);
    /// Checks a table.
    fn check(&self, table: &[u32]) -> u32;
    /// Makes the start state.
    fn start(&self, table: &[u32], state: &mut [u32]) -> u32;
    /// Picks a choice that a step accepts: reply, agent and time.
    fn pick(&self, table: &[u32], state: &[u32]) -> (u32, u32, u32);
    /// One step.
    fn step(&self, table: &[u32], state: &mut [u32], agent: u32, time: u32) -> u32;
    /// A run from the start state: reply and count.
    fn run(&self, table: &[u32], state: &mut [u32], choices: &[u32]) -> (u32, u32);
    /// The output of the trace program.
    fn trace(&self, input: &[u8]) -> Vec<u8>;
}
