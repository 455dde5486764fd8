//! A stack of its own for one call, painted before it, so that what the call used of it shows.

use std::arch::asm;

/// Words of the stack.
const WORDS: usize = 1 << 15;
/// What it is painted with, in turn, so that no call can write the same each time.
const PATTERNS: [u128; 2] = [u128::MAX / 3, u128::MAX / 5];

/// A stack that grows down from its end.
pub struct Painted {
    words: Vec<u128>,
    pattern: usize,
}

impl Painted {
    /// Makes a stack.
    pub fn new() -> Self {
        Painted {
            words: vec![0; WORDS],
            pattern: 0,
        }
    }

    /// Calls a function of some words on the stack and gives how many bytes of it were used, which counts the arguments that
    /// go by the stack, those after the sixth, and the return address.
    ///
    /// # Safety
    /// The function is one of the C calling convention, and the words are arguments that it may be called with.
    pub unsafe fn call<const N: usize>(&mut self, entry: *const (), words: [usize; N]) -> usize {
        self.pattern = (self.pattern + 1) % PATTERNS.len();
        let pattern = PATTERNS[self.pattern];
        self.words.fill(pattern);
        let (registers, behind) = words.split_at(6);
        let pairs = behind.chunks(2).map(|pair| {
            let high = pair.get(1).copied().unwrap_or(0);
            (high as u128) << 64 | pair[0] as u128
        });
        let top = WORDS - pairs.len();
        for (word, pair) in self.words[top..].iter_mut().zip(pairs) {
            *word = pair;
        }
        // SAFETY: the caller answers for the call; the stack is long enough and aligned, and the old one is put back.
        unsafe {
            asm!(
                "mov r12, rsp",
                "mov rsp, {top}",
                "call {entry}",
                "mov rsp, r12",
                top = in(reg) self.words.as_mut_ptr().add(top),
                entry = in(reg) entry,
                in("rdi") registers[0],
                in("rsi") registers[1],
                in("rdx") registers[2],
                in("rcx") registers[3],
                in("r8") registers[4],
                in("r9") registers[5],
                out("r12") _,
                clobber_abi("C"),
            );
        }
        let untouched = self
            .words
            .iter()
            .take_while(|&&word| word == pattern)
            .count();
        (WORDS - untouched) * size_of::<u128>()
    }
}
