//! Calls that take turns on the same records, and the shortest times they take.

use bench::plain::{Found, Refusal, Totals, MOST_BYTES, MOST_VALUES};
use bench::streams;
use std::hint::black_box;
use std::time::{Duration, Instant};

const TIME_FOR_A_CODE: Duration = Duration::from_millis(2_000);

/// A list, the bit where it is written, and a stream of its record, which is read.
pub struct Subject {
    heading: [u32; 3],
    values: Vec<u32>,
    start: u64,
    stream: Vec<u8>,
}

impl Subject {
    pub fn new(heading: [u32; 3], values: &[u32], start: u64) -> Subject {
        Subject { heading, values: values.to_vec(), start, stream: streams::of_record(heading, values) }
    }

    fn stop(&self) -> u64 {
        8 * self.stream.len() as u64
    }

    fn kind(&self) -> u32 {
        self.heading[2]
    }

    fn middle(&self) -> usize {
        self.values.len() / 2
    }
}

/// The memory that is written, the same for all calls.
pub struct Lent {
    buffer: Vec<u8>,
    list: Vec<u32>,
}

/// What is timed: a call for each subject of a sample.
type Calls<'a> = &'a dyn Fn(&[Subject], &mut Lent);

type Writer = fn(&mut [u8], u64, [u32; 3], &[u32]) -> Result<u64, Refusal>;
type Reader = fn(&[u8], u64, u64, u32, &mut [u32]) -> Result<Found, Refusal>;
type LookUp = fn(&[u8], u64, u64, u32, u64) -> Result<u32, Refusal>;
type Search = fn(&[u8], u64, u64, u32) -> Result<u64, Refusal>;
type Check = fn(&[u8]) -> Result<Totals, Refusal>;

pub fn writing(write: Writer) -> impl Fn(&[Subject], &mut Lent) {
    each(move |on, lent| write(black_box(&mut lent.buffer), black_box(on.start), black_box(on.heading), &on.values))
}

pub fn reading(read: Reader) -> impl Fn(&[Subject], &mut Lent) {
    each(move |on, lent| read(black_box(&on.stream), 0, on.stop(), on.kind(), &mut lent.list))
}

pub fn checking(check: Check) -> impl Fn(&[Subject], &mut Lent) {
    each(move |on, _| check(black_box(&on.stream)))
}

pub fn looking_up(look_up: LookUp) -> impl Fn(&[Subject], &mut Lent) {
    each(move |on, _| look_up(black_box(&on.stream), 0, on.stop(), on.kind(), on.middle() as u64))
}

pub fn searching(search: Search) -> impl Fn(&[Subject], &mut Lent) {
    each(move |on, _| search(black_box(&on.stream), 0, on.stop(), on.values[on.middle()]))
}

fn each<T>(call: impl Fn(&Subject, &mut Lent) -> T) -> impl Fn(&[Subject], &mut Lent) {
    move |sample, lent| {
        for subject in sample {
            black_box(call(black_box(subject), black_box(lent)));
        }
    }
}

/// For each of the calls the sum of the shortest times seen for every sample, in seconds. A sample is a number of
/// subjects, since a single short one takes no longer than a look at the clock.
///
/// A disturbance can only make a call longer, so the shortest of many calls is what repeats on a shared machine.
pub fn shortest<const N: usize>(calls: [Calls; N], subjects: &[Subject], in_sample: usize) -> [f64; N] {
    let mut lent = Lent { buffer: vec![0; MOST_BYTES], list: vec![0; MOST_VALUES] };
    let mut shortest = vec![[Duration::MAX; N]; subjects.len().div_ceil(in_sample)];
    let begin = Instant::now();
    let mut round = 0;
    while begin.elapsed() < TIME_FOR_A_CODE {
        for (sample, times) in subjects.chunks(in_sample).zip(&mut shortest) {
            // A later call finds the sample in the cache, so the calls take turns at being the first.
            for call in (0..N).map(|turn| (round + turn) % N) {
                times[call] = times[call].min(time(calls[call], sample, &mut lent));
            }
        }
        round += 1;
    }
    std::array::from_fn(|call| shortest.iter().map(|times| times[call].as_secs_f64()).sum())
}

fn time(calls: Calls, sample: &[Subject], lent: &mut Lent) -> Duration {
    let begin = Instant::now();
    calls(sample, lent);
    begin.elapsed()
}
