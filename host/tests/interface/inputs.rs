//! Numbers and bytes of every kind.

use oracle::generate::prng::Prng;
use rnic::raw::{Arguments, ROOM};
use rnic::{Device, Error, Rooms, Window};

use crate::calls::WRITE;
use crate::support::numbered::Numbered;

/// A number that is no call's is refusal 1, and the device goes on as if it had not been given.
#[test]
fn numbers_of_no_call() {
    let mut prng = Prng::new(1);
    let mut device = Numbered::new();
    let mut store = [0; 4096];
    let calls: [(u64, Arguments); 3] = [
        (0, [4096, 0, 1024, 1024, 2048, 2048, 3072, 3072, 4096]),
        (1, [4, 0, 0, 0, 0, 0, 0, 0, 0]),
        (3, [17, 5, 4096, 4, 1024, 1, 0, 0, 0]),
    ];
    for (number, arguments) in calls {
        let words = device.words(&mut [], number, &arguments, &[]);
        assert_eq!(words, [1, 0, 0, 0, 0, 0, 0, 0]);
    }
    for number in [13, 14, 255, 256, 1 << 32, (1 << 32) + 1, u64::MAX] {
        let arguments = std::array::from_fn(|_| prng.below(20));
        let words = device.words(&mut store, number, &arguments, &WRITE);
        assert_eq!(words, [0, 1, 0, 0, 0, 0, 0, 0], "{number}");
        assert_eq!(store, [0; 4096]);
    }
    let words = device.words(&mut store, 9, &[4, 0, 0, 0, 0, 0, 0, 0, 0], &WRITE);
    assert_eq!(words, [6, 24, 0, 0, 0, 0, 0, 0]);
}

/// Every function answers whatever the numbers and bytes are, also on a device that no opening made.
#[test]
fn any_input() {
    let mut prng = Prng::new(2);
    let mut device = Device::new();
    let (mut store, mut rooms) = (vec![0; 100], Rooms::new());
    for _ in 0..200_000 {
        let mut n = || match prng.below(4) {
            0 => prng.draw(),
            1 => prng.pick(&[u64::MAX, 1 << 32, 100, 16, 64]),
            _ => prng.below(16),
        };
        let (a, b, c, d, e, f) = (n(), n(), n(), n(), n(), n());
        let window = Window {
            key: b,
            base: c,
            length: d,
            place: e,
            rights: f,
        };
        let length = prng.index(60);
        let bytes = prng.bytes(length);
        let answers = [
            device.open_stream(a, b % 2 == 0).err(),
            device.register(c, window).err(),
            device.post(d, e, f).err(),
            device.receive(&mut store, f, &bytes).err(),
            device.offer(&mut store, &mut rooms, f, &bytes).err(),
            device
                .offer(&mut store, &mut rooms, a, &bytes[..length / 2])
                .err(),
            device.receive(&mut store, a, &bytes).err(),
            device.take(a).err(),
            device.live_count(c).err(),
            device.lowest_free(d).err(),
            device.tick(b).err(),
            device.reading(e).err(),
            device.state(f).err(),
            device.drop_window(e).err(),
            device.close_stream(f).err(),
            device.open(b % 128, [0..a % 99, a..c, c..d, d..e]).err(),
        ];
        for answer in answers.into_iter().flatten() {
            assert!(
                matches!(answer, Error::Refused(1..=11 | 16 | 19)),
                "{answer:?}"
            );
        }
        assert!(device.held(d) as usize <= ROOM, "{d}");
    }
}
