//! Acts: calls made over and over on a device of their own, to be timed together or counted one by one.

use std::hint::black_box;

use rnic::{Rooms, Window, RIGHT_READ, RIGHT_WRITE};
use oracle::mpa::CRC_FIELD;
use oracle::state::Device as Second;

use crate::measure::{measure, Times, Work};
use crate::receiver::{Ours, Outcome, Receiver};
use crate::scene::{Kind, Scene, BASE, FRAMES, KEY, ROOM};

/// The stream that is used; a second one, of the same domain, is opened and closed, and a third stays closed.
pub const STREAM: u64 = 0;
pub const OTHER: u64 = 1;
pub const CLOSED: u64 = 2;
/// The window that stays, and another of the same domain.
pub const LIVE: u64 = 0;
pub const WINDOW: u64 = 1;
/// Bytes of the windows that an act registers, and their place: behind the window that stays and the buffers.
const LENGTH: u64 = 64;
pub const PLACE: u64 = buffer(FRAMES);
/// Where the STag and the MSN lie in the FPDU of an untagged segment.
const STAG: std::ops::Range<usize> = 4..8;
const MSN: std::ops::Range<usize> = 12..16;

/// One step of an act.
#[derive(Clone, Copy, Debug, PartialEq, Eq)]
pub enum Step {
    /// Does nothing, which shows what a step costs by itself.
    Nothing,
    /// Goes on to the next number, which the key of a window that is registered turns on.
    Next,
    /// Writes the number into the FPDU as its MSN.
    Number,
    /// Writes the STag of the window that is registered into the FPDU.
    Name,
    /// Opens the device anew.
    Open,
    /// Opens a stream with the CRC on or off.
    OpenStream(u64, bool),
    Close(u64),
    /// Registers a window with these rights.
    Register(u64, u64),
    Drop(u64),
    /// Posts a buffer: stream, start, length.
    Post(u64, u64, u64),
    Take(u64),
    Live(u64),
    Free(u64),
    Tick(u64),
    Reading(u64),
    /// Receives the act's FPDU.
    Receive(u64),
    /// Receives the first half of it.
    ReceiveHalf(u64),
    /// Receives it with a byte of the store left out.
    ReceiveShort(u64),
    /// Offers it whole.
    Offer(u64),
    /// Offers what stands before its CRC.
    OfferFront(u64),
    /// Offers its CRC.
    OfferCrc(u64),
    /// Offers nothing.
    OfferNothing(u64),
}

/// What is done in one operation: its steps, on a device that other steps have made ready, with an FPDU to receive.
#[derive(Clone, Debug)]
pub struct Act {
    pub name: String,
    pub ready: Vec<Step>,
    pub steps: Vec<Step>,
    pub bytes: Vec<u8>,
    /// The refusal that one of the steps is answered by, where there is one.
    pub refused: Option<u8>,
    /// The steps as work for ours and for the second program.
    pub works: [fn(&Act) -> Work<'static>; 2],
}

/// Gives an act of some steps, which needs no more than the bed has and of which none is refused. The steps are constants
/// and are written out in each of the timed loops, so that these make the calls and choose nothing.
macro_rules! act {
    ($name:expr, [$($step:expr),+], $bytes:expr) => {
        $crate::bed::Act {
            name: $name.into(),
            ready: Vec::new(),
            steps: vec![$($step),+],
            bytes: $bytes,
            refused: None,
            works: [
                |act| $crate::bed::work!($crate::receiver::Ours, act, [$($step),+]),
                |act| $crate::bed::work!(oracle::state::Device, act, [$($step),+]),
            ],
        }
    };
}

/// Gives the steps of an act as work for a receiver, each of which must be answered as it was.
macro_rules! work {
    ($receiver:ty, $act:expr, [$($step:expr),+]) => {{
        const STEPS: usize = [$($step),+].len();
        let outcomes: Result<[$crate::receiver::Outcome; STEPS], _> = $act.outcomes().try_into();
        let outcomes = outcomes.expect("an answer to each step");
        let mut bed = $crate::bed::Bed::<$receiver>::of($act);
        $crate::measure::repeated(move || {
            let bed = std::hint::black_box(&mut bed);
            let mut expected = outcomes.iter();
            $(
                let same = expected.next() == Some(&bed.make($step));
                assert!(same, "a call was answered otherwise");
            )+
        })
    }};
}

pub(crate) use {act, work};

impl Act {
    /// Gives the act with steps that make the device ready.
    pub fn after(self, ready: &[Step]) -> Self {
        let ready = ready.to_vec();
        Act { ready, ..self }
    }

    /// Gives the act as one of which a step is refused.
    pub fn refused(self, number: u8) -> Self {
        let refused = Some(number);
        Act { refused, ..self }
    }

    /// Times ours and the second program on the act.
    pub fn times(&self) -> [Times; 2] {
        let mut contenders = self.works.map(|work| work(self));
        let times = measure(1, &mut contenders);
        times.try_into().expect("a time for each contender")
    }

    /// Gives what the steps are answered the first time and the second, in which ours and the second program must agree.
    pub fn outcomes(&self) -> Vec<Outcome> {
        let (mut ours, mut second) = (Bed::<Ours>::of(self), Bed::<Second>::of(self));
        let mut outcomes = || {
            let answered: Vec<Outcome> = self.steps.iter().map(|step| ours.make(*step)).collect();
            let others = self.steps.iter().map(|step| second.make(*step));
            assert!(answered.iter().copied().eq(others), "{}", self.name);
            answered
        };
        let answered = outcomes();
        assert_eq!(answered, outcomes(), "{}", self.name);
        let refusals = answered.iter().filter_map(|outcome| match outcome {
            Outcome::Refused(number) => Some(*number),
            _ => None,
        });
        assert!(refusals.eq(self.refused), "{}: {answered:?}", self.name);
        answered
    }
}

/// A device with one window live and one stream open, its store, and what the steps use.
pub struct Bed<R> {
    device: R,
    scene: Scene,
    store: Vec<u8>,
    rooms: Rooms,
    bytes: Vec<u8>,
    number: u32,
}

impl<R: Receiver> Bed<R> {
    /// Makes the bed of an act ready.
    pub fn of(act: &Act) -> Self {
        let scene = Scene {
            streams: 0,
            ..Scene::of(Kind::Write, 0, false)
        };
        let mut bed = Bed {
            device: scene.device(),
            scene,
            store: vec![0; scene.store as usize],
            rooms: Rooms::new(),
            bytes: act.bytes.clone(),
            number: 0,
        };
        let open = Step::OpenStream(STREAM, false);
        for step in [&[open], &act.ready[..]].concat() {
            bed.make(step);
        }
        bed
    }

    /// Takes a step and gives its answer.
    #[inline(always)]
    pub fn make(&mut self, step: Step) -> Outcome {
        let device = &mut self.device;
        match step {
            Step::Nothing => Outcome::Done,
            Step::Next => {
                self.number = self.number.wrapping_add(1);
                Outcome::Done
            }
            Step::Number => {
                self.bytes[MSN].copy_from_slice(&self.number.to_be_bytes());
                Outcome::Done
            }
            Step::Name => {
                let stag = WINDOW << 8 | key(self.number);
                self.bytes[STAG].copy_from_slice(&(stag as u32).to_be_bytes());
                Outcome::Done
            }
            Step::Open => self.scene.open(device),
            Step::OpenStream(stream, crc) => device.open_stream(black_box(stream), crc),
            Step::Close(stream) => device.close_stream(stream),
            Step::Register(number, rights) => {
                let window = window(self.number, rights);
                device.register(black_box(number), window)
            }
            Step::Drop(window) => device.drop_window(window),
            Step::Post(stream, start, length) => device.post(stream, start, length),
            Step::Take(stream) => device.take(stream),
            Step::Live(domain) => device.live(black_box(domain)),
            Step::Free(domain) => device.free(black_box(domain)),
            Step::Tick(domain) => device.tick(black_box(domain)),
            Step::Reading(domain) => device.reading(black_box(domain)),
            Step::Receive(stream) => {
                let bytes = black_box(&self.bytes[..]);
                device.receive(&mut self.store, stream, bytes)
            }
            Step::ReceiveHalf(stream) => {
                let bytes = black_box(&self.bytes[..self.bytes.len() / 2]);
                device.receive(&mut self.store, black_box(stream), bytes)
            }
            Step::ReceiveShort(stream) => {
                let (bytes, lent) = (black_box(&self.bytes[..]), self.store.len() - 1);
                device.receive(&mut self.store[..lent], black_box(stream), bytes)
            }
            Step::Offer(stream) => {
                let bytes = black_box(&self.bytes[..]);
                device.offer(&mut self.store, &mut self.rooms, stream, bytes)
            }
            Step::OfferFront(stream) => {
                let bytes = black_box(&self.bytes[..self.bytes.len() - CRC_FIELD]);
                device.offer(&mut self.store, &mut self.rooms, stream, bytes)
            }
            Step::OfferCrc(stream) => {
                let bytes = black_box(&self.bytes[self.bytes.len() - CRC_FIELD..]);
                device.offer(&mut self.store, &mut self.rooms, stream, bytes)
            }
            Step::OfferNothing(stream) => {
                let bytes = black_box(&self.bytes[..0]);
                device.offer(&mut self.store, &mut self.rooms, stream, bytes)
            }
        }
    }
}

/// Gives the key of a window that is registered: another than the last one's.
fn key(number: u32) -> u64 {
    KEY + u64::from(number % 2)
}

/// Gives the window that is registered at a number.
fn window(number: u32, rights: u64) -> Window {
    Window {
        key: key(number),
        base: BASE,
        length: LENGTH,
        place: PLACE,
        rights,
    }
}

/// Gives the start of a buffer of a number, which has the same room as the window that stays; they stand behind it.
pub const fn buffer(number: u64) -> u64 {
    (number + 1) * ROOM
}

/// Both rights.
pub const RIGHTS: u64 = RIGHT_WRITE | RIGHT_READ;
