//! Labelings (document 01: labels): a table gives the level of each physical state.

use super::refuse;

/// Make a labeling: kind 1 straight, 2 Gray, 3 reversed. 2; 14.
pub fn make(kind: usize, q: usize) -> Result<Vec<u8>, usize> {
    refuse(2, !(2..=64).contains(&q) || !(1..=3).contains(&kind))?;
    refuse(14, kind != 1 && !q.is_power_of_two())?;
    let bits = q.ilog2();
    let level = |state: usize| match kind {
        1 => state,
        2 => state ^ (state / 2),
        _ => (0..bits).filter(|bit| state >> bit & 1 == 1).map(|bit| 1 << (bits - 1 - bit)).sum(),
    };
    Ok((0..q).map(|state| level(state) as u8).collect())
}

fn checked(table: &[u8], input: &[u8], out_length: usize) -> Result<(), usize> {
    let q = table.len();
    refuse(2, !(2..=64).contains(&q))?;
    refuse(13, !(0..q).all(|level| table.contains(&(level as u8))))?;
    refuse(8, input.len() != out_length)?;
    refuse(10, input.iter().any(|&value| usize::from(value) >= q))
}

/// The level of each state: 2; 13; 8; 10.
pub fn to_levels(table: &[u8], states: &[u8], out_length: usize) -> Result<Vec<u8>, usize> {
    checked(table, states, out_length)?;
    Ok(states.iter().map(|&state| table[usize::from(state)]).collect())
}

/// The state of each level: 2; 13; 8; 10.
pub fn to_states(table: &[u8], levels: &[u8], out_length: usize) -> Result<Vec<u8>, usize> {
    checked(table, levels, out_length)?;
    let state_of = |level: &u8| table.iter().position(|entry| entry == level).expect("a permutation has every level");
    Ok(levels.iter().map(|level| state_of(level) as u8).collect())
}
