//! A peer's Write, from the frame to the store. It opens a device over a store of 4,096 bytes with a window in it, writes the
//! frame that a peer would send, receives it, and shows what came of it. Then it does the same past the window's end.
//!
//! Run it in `host/`, once `./build --library` has built the library: `cargo run --release --example hello`. `examples/hello.c`
//! is the same in C.

use rnic::{stag, write_fpdu, Device, Error, Message, Received, Window, RIGHT_WRITE};

/// Window 17 is domain 1's, and so is stream 4.
const STREAM: u64 = 4;
const WINDOW: u32 = 17;
const KEY: u32 = 5;
const BASE: u64 = 4096;

/// Writes the frame of a Write to a tagged offset, as a peer sends it. A longer message has more frames.
fn write_frame(to: u64, text: &[u8]) -> Result<Vec<u8>, Error> {
    let (mut segment, mut frame) = (vec![0; 8192], vec![0; 8200]);
    let mut message = Message::write(8192, stag(WINDOW, KEY).into(), to, text.len() as u64)?;
    let length = message.next(text, &mut segment)?.unwrap_or(0);
    let length = write_fpdu(&segment[..length], &mut frame)?;
    frame.truncate(length);
    Ok(frame)
}

/// Receives a frame and says what came of it.
fn receive(device: &mut Device, store: &mut [u8], frame: &[u8]) -> Result<(), Error> {
    match device.receive(store, STREAM, frame)? {
        Received::Wait(total) => println!("wait: the frame has {total} bytes"),
        Received::Taken { total, .. } => println!("taken: {total} bytes"),
        Received::Ended(fault) => match fault.refusal() {
            Some(refusal) => println!("ended: {refusal}"),
            None => println!("ended: {fault}"),
        },
    }
    Ok(())
}

fn main() -> Result<(), Error> {
    let text = b"hello, world";
    let mut store = vec![0; 4096];
    let mut device = Device::new();
    device.open(4096, [0..1024, 1024..2048, 2048..3072, 3072..4096])?;
    device.open_stream(STREAM, true)?;
    let window = Window {
        key: KEY.into(),
        base: BASE,
        length: 16,
        place: 1024,
        rights: RIGHT_WRITE,
    };
    device.register(WINDOW.into(), window)?;
    let version = rnic::version();
    println!(
        "rnic {version}: window {WINDOW} has STag {}",
        stag(WINDOW, KEY)
    );

    let frame = write_frame(BASE, text)?;
    println!("a frame of {} bytes", frame.len());
    receive(&mut device, &mut store, &frame[..frame.len() - 1])?;
    receive(&mut device, &mut store, &frame)?;
    let placed = &store[1024..1024 + text.len()];
    println!("the store has: {}", String::from_utf8_lossy(placed));

    let frame = write_frame(BASE + 5, text)?;
    receive(&mut device, &mut store, &frame)
}
