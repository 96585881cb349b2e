//! Ask, then commit: what a straightening will do, told before it writes.

use crate::calls::Straightened;
use crate::raw;
use crate::refusal::{accepted, Refusal};
use crate::setting::Setting;

/// What a straightening will do, as [`ask`] tells it and [`commit`] takes it.
///
/// A ticket is plain numbers, which may be kept, changed or made up: a commit compares its size with the one
/// that it is given, judges its setting, and never reads its count.
#[derive(Clone, Copy, Debug, PartialEq, Eq, Hash)]
pub struct Ticket {
    /// The width that was asked.
    pub width: usize,
    /// The height that was asked.
    pub height: usize,
    /// The setting that was asked.
    pub setting: Setting,
    /// The number of lines that will be interpolated.
    pub count: u32,
}

impl From<Ticket> for raw::Ticket {
    fn from(ticket: Ticket) -> raw::Ticket {
        let Ticket { width, height, setting, count } = ticket;
        raw::Ticket { width, height, setting: setting.into(), count }
    }
}

/// Asks what [`straighten`](crate::straighten) would do with the same picture and buffers, and writes nothing;
/// of `result` and `work` it looks at the lengths alone.
///
/// Refused as that call is, with [`Refusal::Size`], [`Refusal::Buffer`], [`Refusal::Centre`],
/// [`Refusal::Shear`], [`Refusal::Background`] or [`Refusal::Sample`]; then there is no ticket, where
/// [`raw::ask`] has one of size 0 by 0.
///
/// ```
/// # fn main() -> Result<(), straightener::Refusal> {
/// use straightener::{ask, commit, work_places, Refusal, Setting};
///
/// let setting = Setting::new().with_shears(2_048, 0);
/// let mut picture = [0, 10, 0, 10];
/// let (mut result, mut work) = ([7; 4], vec![7; work_places(2, 2)]);
///
/// let ticket = ask(2, 2, setting, &picture, &result, &work)?;
/// assert_eq!((ticket.width, ticket.height, ticket.count), (2, 2, 2));
/// assert_eq!(result, [7; 4]);
///
/// // The picture is judged and straightened as it stands at the commit.
/// picture = [0, 20, 0, 20];
/// let told = commit(ticket, 2, 2, &picture, &mut result, &mut work)?;
/// assert_eq!((result, told.count), ([0, 20, 10, 10], 2));
///
/// // The ticket is for a picture of 2 by 2.
/// assert_eq!(commit(ticket, 4, 1, &picture, &mut result, &mut [0; 48]), Err(Refusal::Ticket));
/// # Ok(())
/// # }
/// ```
pub fn ask(
    width: usize,
    height: usize,
    setting: Setting,
    picture: &[i32],
    result: &[i32],
    work: &[i32],
) -> Result<Ticket, Refusal> {
    let raw::Asked { number, row, column, ticket } =
        raw::ask(width, height, setting.into(), picture, result, work);
    accepted(number, row, column)?;
    Ok(Ticket { width: ticket.width, height: ticket.height, setting, count: ticket.count })
}

/// Straightens a picture as [`straighten`](crate::straighten) does, with the setting of a ticket.
///
/// `width` and `height` are those of `picture`, and must be the ticket's. Everything is judged again: the
/// picture and the buffers as they are handed in here, whatever they held when it was asked, and the ticket's
/// setting. The count is worked out anew.
///
/// Refused with [`Refusal::Size`], [`Refusal::Buffer`], [`Refusal::Ticket`], [`Refusal::Centre`],
/// [`Refusal::Shear`], [`Refusal::Background`] or [`Refusal::Sample`], the first of them that applies; then
/// no buffer is touched. [`ask`] has an example.
pub fn commit(
    ticket: Ticket,
    width: usize,
    height: usize,
    picture: &[i32],
    result: &mut [i32],
    work: &mut [i32],
) -> Result<Straightened, Refusal> {
    Straightened::told(raw::commit(ticket.into(), width, height, picture, result, work))
}
