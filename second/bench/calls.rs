//! Times the archive's two calls, reading and the record check. Both programs are called as a C host
//! calls the archive, so that neither is charged for the way it is called.

use super::table::{print_heading, Rounds};
use super::{ROUNDS, WORDS};
use crate::archive;
use crate::generate::datagrams::Generator;
use crate::generate::records::RecordGenerator;
use crate::pdu::read::{self, Answer};
use crate::pdu::WORDS_MAX;
use crate::trunk::record::{self, Kind};
use std::hint::black_box;
use std::time::Instant;

const SEED: u64 = 1;
/// A row's inputs; a round answers all of them this often.
const INPUTS: usize = 1_000;
const REPEATS: usize = 100;

/// The archive's interface: a pointer and a length, to number and size in one word.
type Export = unsafe extern "C" fn(*const u8, usize) -> u64;

/// A call of the archive, and the second program's own behind the same interface.
#[derive(Clone, Copy)]
struct Call {
    archive: Export,
    second: Export,
}

const READING: Call = Call {
    archive: archive::altuvrin_datagram,
    second: second_datagram,
};

const RECORD_CHECK: Call = Call {
    archive: archive::altuvrin_record,
    second: second_record,
};

unsafe extern "C" fn second_datagram(bytes: *const u8, length: usize) -> u64 {
    pack(read::answer(std::slice::from_raw_parts(bytes, length)))
}

unsafe extern "C" fn second_record(bytes: *const u8, length: usize) -> u64 {
    pack(record::answer(std::slice::from_raw_parts(bytes, length)))
}

fn pack(answer: Answer) -> u64 {
    u64::from(answer.number) << 32 | u64::from(answer.size)
}

fn answer(call: Export, input: &[u8]) -> u64 {
    // SAFETY: the pointer and the length are those of a slice, which is only read.
    unsafe { call(input.as_ptr(), input.len()) }
}

pub fn time_reading() {
    let mut generator = Generator::new(SEED);
    print_heading("reading");
    READING.time("Transmitters", || generator.transmitter());
    READING.time("Signals", || generator.signal());
    READING.time("refused", || refused(READING, || generator.datagram()));
    for words in WORDS {
        let what = format!("Signals of {words} words");
        READING.time(&what, || generator.signal_of_words(words));
    }
}

pub fn time_record_check() {
    let mut generator = RecordGenerator::new(SEED);
    let mut number = 0;
    let mut of = |kind| {
        number += 1;
        generator.of(kind, number)
    };
    print_heading("record check");
    RECORD_CHECK.time("Transmitters", || of(Kind::Transmitter));
    let mut words = (0..=WORDS_MAX).cycle();
    RECORD_CHECK.time("Signals", || {
        of(Kind::Signal(words.next().expect("endless")))
    });
    RECORD_CHECK.time("replies", || of(Kind::Reply));
    for words in WORDS {
        let what = format!("Signals of {words} words");
        RECORD_CHECK.time(&what, || of(Kind::Signal(words)));
    }
    RECORD_CHECK.time("refused", || refused(RECORD_CHECK, || generator.record()));
}

/// The next input that is refused.
fn refused(call: Call, mut input: impl FnMut() -> Vec<u8>) -> Vec<u8> {
    loop {
        let input = input();
        if answer(call.second, &input) >> 32 != 0 {
            return input;
        }
    }
}

impl Call {
    /// Times both on the same inputs and prints a row.
    fn time(self, what: &str, input: impl FnMut() -> Vec<u8>) {
        let inputs: Vec<Vec<u8>> = std::iter::repeat_with(input).take(INPUTS).collect();
        let mut rounds = Rounds::default();
        for _ in 0..ROUNDS {
            rounds.proved.push(time(&inputs, self.archive));
            rounds.second.push(time(&inputs, self.second));
        }
        rounds.print(what);
    }
}

/// Nanoseconds for each call in one round.
fn time(inputs: &[Vec<u8>], call: Export) -> f64 {
    let call = black_box(call);
    let start = Instant::now();
    for _ in 0..REPEATS {
        for input in inputs {
            black_box(answer(call, black_box(input)));
        }
    }
    start.elapsed().as_nanos() as f64 / (REPEATS * inputs.len()) as f64
}
