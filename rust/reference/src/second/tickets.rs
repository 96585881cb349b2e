//! Ask, then commit: the single call in two.

use super::picture::{judge_lent, straighten, Setting};
use super::{refuse_if, Refused, Told};

/// What asking returns and committing takes.
#[derive(Clone, Copy, Debug, PartialEq, Eq)]
pub struct Ticket {
    /// The width asked.
    pub width: usize,
    /// The height asked.
    pub height: usize,
    /// The setting as asked.
    pub setting: Setting,
    /// Lines that will be interpolated.
    pub count: u32,
}

/// Applies every test and returns a ticket with size, setting and count, by the single call on copies of the
/// buffers. Refused, the ticket has size 0 by 0 and count 0.
pub fn ask(
    width: usize,
    height: usize,
    setting: Setting,
    picture: &[i32],
    result: &[i32],
    work: &[i32],
) -> (Result<(), Refused>, Ticket) {
    match straighten(width, height, setting, picture, &mut result.to_vec(), &mut work.to_vec()) {
        Ok(told) => (Ok(()), Ticket { width, height, setting, count: told.count }),
        Err(refused) => (Err(refused), Ticket { width: 0, height: 0, setting, count: 0 }),
    }
}

/// Applies every test again, with number 14 after 2 and before 3, and writes.
pub fn commit(
    ticket: Ticket,
    width: usize,
    height: usize,
    picture: &[i32],
    result: &mut [i32],
    work: &mut [i32],
) -> Result<Told, Refused> {
    judge_lent(width, height, picture, result, work)?;
    refuse_if((width, height) != (ticket.width, ticket.height), 14)?;
    straighten(width, height, ticket.setting, picture, result, work)
}
