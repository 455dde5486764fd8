//! One call of an act made over and over, for a program that counts instructions: `benchmarks/instructions`.

use oracle::generate::draft::{frame, Draft};
use oracle::rdmap;
use oracle::state::Device as Second;

use crate::bed::{act, Act, Bed, Step, OTHER, STREAM};
use crate::calls::{self, write_of, POST, RECEIVE};
use crate::receiver::{Ours, Outcome, Receiver};
use crate::refusals::{self, CLOSE, DROP, REGISTER, REOPEN};
use crate::table::grouped;

/// A name, an act, and the step of it that is counted.
type Counted = (String, Act, Step);

/// Answers the arguments of a count: `names`, or `ours` or `second`, which call and how often. Gives whether it could.
pub fn run(words: &[String]) -> bool {
    let counted = counted();
    match words {
        [names] if names == "names" => {
            counted.iter().for_each(|(name, ..)| println!("{name}"));
            true
        }
        [receiver, call, often] => {
            let call = call.parse().ok().and_then(|call: usize| counted.get(call));
            let (Some((_, act, step)), Ok(often)) = (call, often.parse()) else {
                return false;
            };
            match receiver.as_str() {
                "ours" => repeat::<Ours>(act, *step, often),
                "second" => repeat::<Second>(act, *step, often),
                _ => return false,
            }
            true
        }
        _ => false,
    }
}

/// Takes the steps of an act so often, one of them where it is counted.
fn repeat<R: Receiver>(act: &Act, counted: Step, often: u64) {
    let found = act.steps.iter().filter(|step| **step == counted);
    assert_eq!(found.count(), 1, "one step is counted");
    let outcomes = act.outcomes();
    let mut bed = Bed::<R>::of(act);
    for _ in 0..often {
        for (step, outcome) in act.steps.iter().zip(&outcomes) {
            let mut answer = Outcome::Done;
            let mut make = || answer = bed.make(*step);
            if *step == counted {
                count(&mut make);
            } else {
                make();
            }
            assert!(answer == *outcome, "a call was answered otherwise");
        }
    }
}

/// Does the work; instructions are counted from the start of this function to its end, by its name.
#[export_name = "rnic_counted"]
#[inline(never)]
fn count(work: &mut dyn FnMut()) {
    work();
}

/// Gives every call that is counted; the first does nothing, and shows what counting itself takes.
fn counted() -> Vec<Counted> {
    let nothing = act!("", [Step::Nothing], Vec::new());
    let mut counted = vec![named("nothing", nothing, Step::Nothing)];
    counted.extend(of_the_host());
    counted.extend(writes());
    counted.extend(untagged());
    counted.extend(offers());
    let refused = refusals::peers().into_iter().chain(refusals::locals());
    counted.extend(refused.map(|act| {
        let received = act.steps.contains(&RECEIVE);
        let step = if received { RECEIVE } else { act.steps[0] };
        named(format!("refused {}", act.name), act, step)
    }));
    counted
}

/// Gives a call with its name.
fn named(name: impl Into<String>, act: Act, step: Step) -> Counted {
    (name.into(), act, step)
}

/// Gives the calls of the host.
fn of_the_host() -> [Counted; 11] {
    let open = act!("", [Step::Open], Vec::new());
    let (opened, closed) = (Step::OpenStream(OTHER, false), Step::Close(OTHER));
    let (live, free) = (Step::Live(0), Step::Free(0));
    [
        named("open", open, Step::Open),
        named("open_stream", calls::open_and_close(), opened),
        named("close_stream", calls::open_and_close(), closed),
        named("register", calls::register_and_drop(), REGISTER),
        named("drop_window", calls::register_and_drop(), DROP),
        named("post", calls::post_and_send(64), POST),
        named("take", calls::read_and_take(), Step::Take(STREAM)),
        named("live_count", calls::live(), live),
        named("lowest_free", calls::free(), free),
        named("tick", calls::tick(), Step::Tick(0)),
        named("reading", calls::reading(), Step::Reading(0)),
    ]
}

/// Gives receives of Writes, and of half of one.
fn writes() -> Vec<Counted> {
    let mut counted = vec![named(
        "receive: Wait",
        calls::wait(),
        Step::ReceiveHalf(STREAM),
    )];
    for crc in [false, true] {
        for size in [0, 64, 2034, 8178] {
            let setting = if crc { ", CRC on" } else { "" };
            let name = format!("receive: Write of {} bytes{setting}", grouped(size as u64));
            let act = act!("", [RECEIVE], frame(&write_of(size).ulpdu(), 0));
            let reopened = [CLOSE, Step::OpenStream(STREAM, crc)];
            counted.push(named(name, act.after(&reopened), RECEIVE));
        }
    }
    counted
}

/// Gives receives of the other messages.
fn untagged() -> [Counted; 5] {
    let invalidating = Draft {
        opcode: rdmap::SEND_INVALIDATE,
        ..calls::send(64)
    };
    let bytes = frame(&invalidating.ulpdu(), 0);
    let invalidate = act!(
        "",
        [
            Step::Next,
            Step::Number,
            Step::Name,
            REGISTER,
            POST,
            RECEIVE
        ],
        bytes
    );
    let mut terminate = Draft::new(false, rdmap::TERMINATE);
    (terminate.qn, terminate.payload) = (rdmap::TERMINATE_QUEUE, vec![0; rdmap::TERMINATE_MIN]);
    let terminate = act!("", [RECEIVE, CLOSE, REOPEN], frame(&terminate.ulpdu(), 0));
    let longest = format!("receive: Send of {} bytes", grouped(2030));
    let invalidating = "receive: Send with Invalidate of 64 bytes";
    [
        named(
            "receive: Send of 64 bytes",
            calls::post_and_send(64),
            RECEIVE,
        ),
        named(longest, calls::post_and_send(2030), RECEIVE),
        named(invalidating, invalidate, RECEIVE),
        named("receive: Read Request", calls::read_and_take(), RECEIVE),
        named("receive: Terminate", terminate, RECEIVE),
    ]
}

/// Gives offers of Writes: whole, and cut before the CRC; and one of nothing to a stream that holds bytes.
fn offers() -> Vec<Counted> {
    let (whole, front) = (Step::Offer(STREAM), Step::OfferFront(STREAM));
    let (crc_field, nothing) = (Step::OfferCrc(STREAM), Step::OfferNothing(STREAM));
    let mut counted = Vec::new();
    for crc in [false, true] {
        for size in [64, 2034, 8178] {
            let setting = if crc { ", CRC on" } else { "" };
            let name = format!("Write of {} bytes{setting}", grouped(size as u64));
            let bytes = frame(&write_of(size).ulpdu(), 0);
            let reopened = [CLOSE, Step::OpenStream(STREAM, crc)];
            let offered = act!("", [Step::Offer(STREAM)], bytes.clone()).after(&reopened);
            counted.push(named(format!("offer: {name}"), offered, whole));
            let cut = act!(
                "",
                [Step::OfferFront(STREAM), Step::OfferCrc(STREAM)],
                bytes
            );
            let cut = cut.after(&reopened);
            counted.push(named(
                format!("offer: {name}, before the CRC"),
                cut.clone(),
                front,
            ));
            counted.push(named(format!("offer: {name}, the CRC"), cut, crc_field));
        }
    }
    let bytes = frame(&write_of(64).ulpdu(), 0);
    let none = act!("", [Step::OfferNothing(STREAM)], bytes).after(&[front]);
    counted.push(named("offer: nothing, while bytes are held", none, nothing));
    counted
}
