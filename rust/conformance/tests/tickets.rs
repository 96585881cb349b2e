//! Ask, then commit: what an asking tells, and what a commit judges and writes.
//!
//! Every asking here is also held to leaving its buffers as they were, and every commit to what `calls` holds
//! the single call to.

use conformance::calls::PictureCall;
use conformance::numbers::Numbers;
use conformance::{for_both_implementations, Answer, Implementation};
use reference::second::{Border, Setting, Ticket};

for_both_implementations!(
    an_asking_tells_what_the_single_call_does,
    a_commit_on_the_ticket_is_the_single_call,
    a_refused_asking_comes_with_an_empty_ticket,
    no_picture_is_of_the_size_of_an_empty_ticket,
    a_ticket_of_another_size,
    the_number_that_comes_first_on_a_commit,
    a_picture_filled_anew_is_judged_as_it_stands,
    the_count_of_a_ticket_is_never_read,
    a_made_up_ticket_is_judged_whole,
);

/// A call in which nothing is wrong: 3 by 2, with 4 lines interpolated.
fn good() -> PictureCall {
    let setting = Setting { kernel: 2, cx: 1, cy: 1, a: 700, b: -900, border: Border::Background(-50) };
    PictureCall::fitting((3, 2), setting, vec![1, 2, 3, 4, 5, 6])
}

/// A ticket for a call, with a count that no asking would tell.
fn made_up(call: &PictureCall) -> Ticket {
    Ticket { width: call.size.0, height: call.size.1, setting: call.setting, count: u32::MAX }
}

/// Calls in which anything may be wrong, and those in which nothing is.
fn hostile(seed: u64) -> impl Iterator<Item = PictureCall> {
    let mut numbers = Numbers::seeded(seed);
    (0..4_000).map(move |_| PictureCall::hostile(&mut numbers))
}

fn an_asking_tells_what_the_single_call_does(implementation: &dyn Implementation) {
    for call in hostile(71) {
        let (single, (answer, ticket)) = (call.run(implementation).answer, call.ask(implementation));
        assert_eq!(answer, Answer { count: 0, ..single }, "{call:?}");
        assert_eq!(ticket.count, single.count, "{call:?}");
    }
    assert_eq!(good().ask(implementation).1, Ticket { count: 4, ..made_up(&good()) });
}

fn a_commit_on_the_ticket_is_the_single_call(implementation: &dyn Implementation) {
    let mut accepted = 0;
    for call in hostile(72) {
        let (answer, ticket) = call.ask(implementation);
        if answer.number == 0 {
            assert_eq!(call.commit(ticket, implementation), call.run(implementation), "{call:?}");
            accepted += 1;
        }
    }
    assert!(accepted > 1_000, "too few of the calls were accepted: {accepted}");
}

fn a_refused_asking_comes_with_an_empty_ticket(implementation: &dyn Implementation) {
    for call in hostile(73) {
        let (answer, ticket) = call.ask(implementation);
        let empty = Ticket { width: 0, height: 0, setting: call.setting, count: 0 };
        let told = Ticket { width: call.size.0, height: call.size.1, ..ticket };
        assert_eq!(ticket, if answer.number == 0 { told } else { empty }, "{call:?}");
        assert_eq!(ticket.setting, call.setting, "{call:?}");
    }
}

fn no_picture_is_of_the_size_of_an_empty_ticket(implementation: &dyn Implementation) {
    let refused = PictureCall { setting: good().setting.with_kernel(3), ..good() };
    let (answer, ticket) = refused.ask(implementation);
    assert_eq!(answer, Answer::refused(5));
    assert_eq!(good().commit(ticket, implementation).answer, Answer::refused(14));
    let short = PictureCall { work_length: 35, ..good() };
    assert_eq!(short.commit(ticket, implementation).answer, Answer::refused(2));
    // The sizes agree, and 0 by 0 is no size.
    let nothing = PictureCall { size: (0, 0), ..good() };
    assert_eq!(nothing.commit(ticket, implementation).answer, Answer::refused(1));
}

fn a_ticket_of_another_size(implementation: &dyn Implementation) {
    let ticket = good().ask(implementation).1;
    assert_eq!(good().commit(ticket, implementation).answer, Answer::accepted(4));
    let sizes = [(2, 2), (4, 2), (3, 1), (3, 3), (2, 3), (6, 1), (0, 2), (3, 0), (1_025, 2), (3, usize::MAX)];
    for (width, height) in sizes {
        let other = Ticket { width, height, ..ticket };
        assert_eq!(good().commit(other, implementation).answer, Answer::refused(14), "{width} by {height}");
    }
    // A picture of as many samples, of another shape.
    let turned = PictureCall { size: (2, 3), ..good() };
    assert_eq!(turned.commit(ticket, implementation).answer, Answer::refused(14));
}

// The numbers in the order 1, 2, 14, 3, 4, 5, 12, 6, each with all that come after it.
fn the_number_that_comes_first_on_a_commit(implementation: &dyn Implementation) {
    type Spoil = fn(&mut PictureCall, &mut Ticket);
    let spoils: [(u32, Spoil); 8] = [
        (6, |call, _| call.picture[4] = 32_768),
        (12, |_, ticket| ticket.setting.border = Border::Background(-32_768)),
        (5, |_, ticket| ticket.setting.kernel = 3),
        (4, |_, ticket| ticket.setting.b = -4_097),
        (3, |_, ticket| ticket.setting.cy = 2),
        (14, |_, ticket| ticket.height = 3),
        (2, |call, _| call.work_length = 35),
        (1, |call, _| call.size.1 = 1_025),
    ];
    let (mut call, mut ticket) = (good(), good().ask(implementation).1);
    for (number, spoil) in spoils {
        spoil(&mut call, &mut ticket);
        let place = if number == 6 { (1, 1) } else { (0, 0) };
        let expected = Answer::of(number, place.0, place.1, 0);
        assert_eq!(call.commit(ticket, implementation).answer, expected, "{number}");
    }
}

fn a_picture_filled_anew_is_judged_as_it_stands(implementation: &dyn Implementation) {
    let ticket = good().ask(implementation).1;
    let anew = PictureCall { picture: vec![60, -50, 4_000, 32_767, -32_767, 0], ..good() };
    let committed = anew.commit(ticket, implementation);
    assert_eq!(committed, anew.run(implementation));
    assert_ne!(committed.result, good().run(implementation).result);
    let spoilt = PictureCall { picture: vec![1, 2, 3, 4, 5, -32_768], ..good() };
    assert_eq!(spoilt.commit(ticket, implementation).answer, Answer::of(6, 1, 2, 0));
    let shorter = PictureCall { result_length: 5, ..good() };
    assert_eq!(shorter.commit(ticket, implementation).answer, Answer::refused(2));
}

fn the_count_of_a_ticket_is_never_read(implementation: &dyn Implementation) {
    let expected = good().run(implementation);
    for count in [0, 1, 3, 5, u32::MAX] {
        let ticket = Ticket { count, ..made_up(&good()) };
        assert_eq!(good().commit(ticket, implementation), expected, "a ticket that tells {count}");
    }
}

fn a_made_up_ticket_is_judged_whole(implementation: &dyn Implementation) {
    for call in hostile(74) {
        assert_eq!(call.commit(made_up(&call), implementation), call.run(implementation), "{call:?}");
    }
}
