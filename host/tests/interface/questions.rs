//! Questions write nothing to a device: they are asked of words on pages that cannot be written, where a write ends the test.

use std::alloc::{alloc_zeroed, dealloc, Layout};
use std::ffi::{c_int, c_void};

use rnic::raw::{call, rnic_c_call, rnic_c_held, Rnic, Words};

use crate::support::numbered::Numbered;
use crate::support::{night, Program};

/// The store of the nights.
const SMALL: usize = 4096;
/// The bytes of a page.
const PAGE: usize = 4096;
/// The calls that change nothing.
const QUESTIONS: [u64; 4] = [
    call::LIVE_COUNT,
    call::LOWEST_FREE,
    call::READING,
    call::STATE,
];

extern "C" {
    fn mprotect(start: *mut c_void, length: usize, protection: c_int) -> c_int;
}

/// A device on pages of its own.
struct Pages {
    device: *mut Rnic,
    layout: Layout,
}

impl Pages {
    /// Makes a device of zeros.
    fn new() -> Self {
        let size = size_of::<Rnic>().next_multiple_of(PAGE);
        let layout = Layout::from_size_align(size, PAGE).unwrap();
        // SAFETY: the size is not 0.
        let device = unsafe { alloc_zeroed(layout) }.cast();
        assert!(!std::ptr::eq(device, std::ptr::null()));
        Pages { device, layout }
    }

    /// Lets the pages be read alone (1), or written too (3).
    fn protect(&self, protection: c_int) {
        // SAFETY: the pages are this device's whole.
        let answer = unsafe { mprotect(self.device.cast(), self.layout.size(), protection) };
        assert_eq!(answer, 0);
    }

    /// Asks every question about every number of some words, which cannot be written meanwhile.
    fn ask(&mut self, words: &[u64]) -> Vec<Words> {
        // SAFETY: the pages are as long as a device, and may be written now.
        unsafe { (*self.device).words.copy_from_slice(words) };
        self.protect(1);
        let mut answers = Vec::new();
        for question in QUESTIONS {
            answers.extend((0..17).map(|about| self.question(question, about)));
        }
        for stream in 0..17 {
            // SAFETY: the device can be read.
            let held = unsafe { rnic_c_held(self.device, stream) };
            answers.push([u64::from(held); 8]);
        }
        self.protect(3);
        answers
    }

    /// Asks one question.
    fn question(&self, number: u64, about: u64) -> Words {
        let mut answer = [0; 8];
        let arguments = [about, 0, 0, 0, 0, 0, 0, 0, 0];
        let (store, bytes): (&mut [u8], &[u8]) = (&mut [], &[]);
        // SAFETY: the device can be read, which is what is tested; nothing else overlaps it.
        unsafe {
            let (store, bytes) = (store.as_mut_ptr(), bytes.as_ptr());
            rnic_c_call(
                self.device,
                store,
                0,
                number,
                &arguments,
                bytes,
                0,
                &mut answer,
            );
        }
        answer
    }
}

impl Drop for Pages {
    fn drop(&mut self) {
        self.protect(3);
        // SAFETY: the pages were made so.
        unsafe { dealloc(self.device.cast(), self.layout) };
    }
}

#[test]
fn questions_write_nothing() {
    let mut pages = Pages::new();
    let mut program = Program::new(Numbered::new(), SMALL);
    let mut found = Vec::new();
    for line in night(SMALL, 21, 2000) {
        program.run_line(&line);
        found.extend(pages.ask(program.device.device()));
    }
    // The nights have windows and held bytes to be asked about.
    assert!(found.iter().any(|words| words[0] == 4 && words[1] > 1));
    let held = |words: &Words| words[0] > 0 && words.iter().all(|word| *word == words[0]);
    assert!(found.iter().any(held));
}
