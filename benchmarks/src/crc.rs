//! CRC-32C: ours, one table, eight tables, the processor's own instruction, bit by bit; and two CRCs joined.

use std::hint::black_box;

use oracle::crc::crc32c;
use oracle::generate::prng::Prng;
use oracle::pieces;

use crate::measure::{measure, repeated};
use crate::table;

/// Writes the tables.
pub fn write() {
    println!("\n### CRC-32C");
    let columns = [
        "ours",
        "one table",
        "eight tables",
        "the processor's",
        "bit by bit",
        "one table ÷ ours",
        "aim",
        "met",
        "eight tables ÷ ours",
        "aim",
        "met",
    ];
    table::head(&["bytes"], &columns);
    for (length, one, eight) in [
        (64, None, None),
        (512, None, None),
        (2048, Some(4.0), Some(1.0)),
        (8192, Some(6.0), Some(1.0)),
    ] {
        row(length, one, eight);
    }
    println!("\n### Two CRCs joined");
    table::head(&["bytes of the second piece"], &["ours", "second program"]);
    for length in [0, 2048, u32::MAX] {
        joined(length);
    }
}

/// Times the ways on the same bytes, once they have agreed on them; the aims are rates, beside one table and eight.
fn row(length: usize, one: Option<f64>, eight: Option<f64>) {
    let bytes = Prng::new(length as u64).bytes(length);
    let mut ways: Vec<fn(&[u8]) -> u32> = vec![rnic::crc32c, crc32c, eight_tables, bit_by_bit];
    ways.extend(processor::routine());
    assert!(ways.iter().all(|way| way(&bytes) == crc32c(&bytes)));
    let work = |way: &fn(&[u8]) -> u32| {
        let (way, bytes) = (*way, &bytes);
        repeated(move || {
            black_box(way(black_box(bytes)));
        })
    };
    let mut contenders: Vec<_> = ways.iter().map(work).collect();
    let times = measure(1, &mut contenders);
    let mut cells = vec![table::grouped(length as u64)];
    cells.extend(times[..3].iter().map(table::times));
    cells.push(times.get(4).map_or(String::from(table::NONE), table::times));
    cells.push(table::times(&times[3]));
    for (other, aim) in [(1, one), (2, eight)] {
        let rate = times[other].ratio(&times[0]);
        cells.push(format!("{rate:.2}"));
        cells.extend(table::Aim(aim).at_least(rate));
    }
    table::row(&cells);
}

/// Times a join, once both programs have agreed on it.
fn joined(length: u32) {
    let (first, second) = (0x1234_5678, 0x9ABC_DEF0);
    let ways: [fn(u32, u32, u32) -> u32; 2] = [rnic::crc32c_join, pieces::join];
    assert_eq!(
        ways[0](first, second, length),
        ways[1](first, second, length)
    );
    let mut contenders = ways.map(|way| {
        repeated(move || {
            black_box(way(black_box(first), black_box(second), black_box(length)));
        })
    });
    let times = measure(1, &mut contenders);
    let mut cells = vec![table::grouped(u64::from(length))];
    cells.extend(times.iter().map(table::times));
    table::row(&cells);
}

/// The CRC by the processor's instruction for it: the limit that no other program reaches.
mod processor {
    /// Gives the routine, where the processor has the instruction.
    pub fn routine() -> Option<fn(&[u8]) -> u32> {
        #[cfg(target_arch = "x86_64")]
        if is_x86_feature_detected!("sse4.2") {
            return Some(crc32c);
        }
        None
    }

    /// Computes the CRC eight bytes at a time.
    #[cfg(target_arch = "x86_64")]
    fn crc32c(bytes: &[u8]) -> u32 {
        // SAFETY: `routine` gives this function only where the processor has the instruction.
        unsafe { by_instruction(bytes) }
    }

    #[cfg(target_arch = "x86_64")]
    #[target_feature(enable = "sse4.2")]
    unsafe fn by_instruction(bytes: &[u8]) -> u32 {
        use std::arch::x86_64::{_mm_crc32_u64, _mm_crc32_u8};
        let mut crc = u64::from(!0u32);
        let mut chunks = bytes.chunks_exact(8);
        for chunk in &mut chunks {
            crc = _mm_crc32_u64(
                crc,
                u64::from_le_bytes(chunk.try_into().expect("eight bytes")),
            );
        }
        let last = |crc: u32, byte: &u8| _mm_crc32_u8(crc, *byte);
        !chunks.remainder().iter().fold(crc as u32, last)
    }
}

/// Entry i of table k: the CRC's change for the byte i, k bytes before the last of eight.
static TABLES: [[u32; 256]; 8] = tables();

/// Computes the eight tables.
const fn tables() -> [[u32; 256]; 8] {
    let mut tables = [[0u32; 256]; 8];
    let mut byte = 0;
    while byte < 256 {
        let mut crc = byte as u32;
        let mut bit = 0;
        while bit < 8 {
            crc = (crc >> 1) ^ (0x82F6_3B78 & (crc & 1).wrapping_neg());
            bit += 1;
        }
        tables[0][byte] = crc;
        byte += 1;
    }
    let mut k = 1;
    while k < 8 {
        let mut byte = 0;
        while byte < 256 {
            let before = tables[k - 1][byte];
            tables[k][byte] = (before >> 8) ^ tables[0][(before & 255) as usize];
            byte += 1;
        }
        k += 1;
    }
    tables
}

/// Computes the CRC eight bytes at a time, as software does it where speed matters.
pub fn eight_tables(bytes: &[u8]) -> u32 {
    let mut crc = !0u32;
    let mut chunks = bytes.chunks_exact(8);
    for chunk in &mut chunks {
        let word = u64::from_le_bytes(chunk.try_into().expect("eight bytes")) ^ u64::from(crc);
        let entry = |k: usize| TABLES[7 - k][(word >> (8 * k)) as usize & 255];
        crc = (0..8).fold(0, |sum, k| sum ^ entry(k));
    }
    let last =
        |crc: u32, byte: &u8| (crc >> 8) ^ TABLES[0][((crc ^ u32::from(*byte)) & 255) as usize];
    !chunks.remainder().iter().fold(crc, last)
}

/// Computes the CRC bit by bit; the polynomial is hidden from the compiler, which else makes a table of the loop.
fn bit_by_bit(bytes: &[u8]) -> u32 {
    let polynomial = black_box(0x82F6_3B78);
    let step = |crc: u32, _| (crc >> 1) ^ (polynomial & (crc & 1).wrapping_neg());
    let take = |crc, byte: &u8| (0..8).fold(crc ^ u32::from(*byte), step);
    !bytes.iter().fold(!0, take)
}
