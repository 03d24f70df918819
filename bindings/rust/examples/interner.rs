//! An interner: each word gets a number, the same one in all threads, and a number gets its word back.
//!
//!     cargo run --release --example interner
//!
//! A map has the number of each word; words are of at most eight letters, so that they are keys as they are. A thread that meets a
//! word takes the next number and puts both into the map, unless another has put the word there first (`get_or_insert`): then that
//! one's number is the word's, and its own stays without a word. The words by their numbers are in an array, written before the
//! number is in the map; so a thread that got a number may read its word.
//!
//! The program interns one stream of words by four threads, and sees that no word has two numbers, no number two words, and each
//! word comes back.
#![allow(clippy::cast_possible_truncation, reason = "the numbers are small")]
use std::collections::HashMap;
use std::error::Error;
use std::sync::atomic::{AtomicU32, AtomicU64, Ordering::Relaxed};
use std::thread;
use vbr::{Bits, Map, MapHandle, Refusal, Shape};

const THREADS: usize = 4;
const WORDS: u32 = 20_000;
const MEETINGS: u32 = 200_000;

/// A word of at most eight letters, filled up by zeros.
#[derive(Clone, Copy, Debug, PartialEq, Eq, Hash)]
struct Word([u8; 8]);

impl Bits for Word {
    fn to_bits(self) -> u64 {
        self.0.to_bits()
    }
    fn from_bits(bits: u64) -> Word {
        Word(Bits::from_bits(bits))
    }
}

/// The words by their numbers, which threads share.
struct Words {
    next: AtomicU32,
    by_number: Vec<AtomicU64>,
}

/// The interner, as one thread has it.
struct Interner<'w> {
    numbers: MapHandle<Word, u32>,
    words: &'w Words,
}

impl Interner<'_> {
    /// The number of a word.
    fn intern(&mut self, word: Word) -> Result<u32, Refusal> {
        if let Some(number) = self.numbers.get(word)? {
            return Ok(number); // most words were met before
        }
        let number = self.words.next.fetch_add(1, Relaxed);
        self.words.by_number[number as usize].store(word.to_bits(), Relaxed);
        self.numbers.entry(word).or_insert(number)
    }

    /// The word of a number that was returned.
    fn word(&self, number: u32) -> Word {
        Word::from_bits(self.words.by_number[number as usize].load(Relaxed))
    }
}

/// A word of the stream: some come often.
fn word_of(meeting: u32) -> Word {
    let mixed = (u64::from(meeting) + 1).wrapping_mul(0x9e37_79b9_7f4a_7c15) >> 32;
    let number = (((mixed * mixed) >> 32) * u64::from(WORDS)) >> 32;
    let letter = |place: u32| b'a' + (number / 26_u64.pow(place) % 26) as u8;
    Word([letter(0), letter(1), letter(2), letter(3), 0, 0, 0, 0])
}

fn main() -> Result<(), Box<dyn Error>> {
    let spare = WORDS * THREADS as u32; // numbers of words that another thread was faster with
    let words = Words { next: AtomicU32::new(0), by_number: (0..WORDS + spare).map(|_| AtomicU64::new(0)).collect() };
    let met = AtomicU32::new(0);
    let handles = Map::handles(Shape::for_keys(WORDS, THREADS))?;
    let told = thread::scope(|scope| {
        let threads: Vec<_> = handles
            .into_iter()
            .map(|numbers| {
                let (mut interner, met) = (Interner { numbers, words: &words }, &met);
                scope.spawn(move || {
                    let mut told = HashMap::new();
                    loop {
                        let meeting = met.fetch_add(1, Relaxed);
                        if meeting >= MEETINGS {
                            return Ok(told);
                        }
                        let word = word_of(meeting);
                        let number = interner.intern(word)?;
                        assert_eq!(interner.word(number), word);
                        assert_eq!(*told.entry(word).or_insert(number), number, "a word has two numbers");
                    }
                })
            })
            .collect();
        threads.into_iter().map(|it| it.join().expect("a thread that ends")).collect::<Result<Vec<_>, Refusal>>()
    })?;
    let mut numbers = HashMap::new();
    for (word, number) in told.into_iter().flatten() {
        assert_eq!(*numbers.entry(word).or_insert(number), number, "a word has two numbers");
    }
    let words: HashMap<_, _> = numbers.iter().map(|(word, number)| (number, word)).collect();
    assert_eq!(words.len(), numbers.len(), "a number has two words");
    println!("interner in Rust: passed, {} words, each with one number in {THREADS} threads", words.len());
    Ok(())
}
