//! How long a call takes.

use std::hint::black_box;
use std::time::{Duration, Instant};

use comparison::formats::fault::ACCEPTED;

use crate::rows::{Group, Lent, Row, Side};

/// A round goes on for about this long.
const ROUND: Duration = Duration::from_millis(4);

/// The fastest of so many rounds is taken: what else runs on the machine can only slow a round.
const ROUNDS: usize = 9;

/// Nanoseconds per call, and those of one `memcpy` of as many bytes as are handed in.
#[derive(Clone, Copy, Debug)]
pub struct Times {
    pub library: f64,
    pub second: f64,
    pub memcpy: f64,
}

/// What is timed of a row.
#[derive(Clone, Copy, Debug)]
enum Work {
    Call(Side),
    Memcpy,
}

/// Makes the call so many times. Not inlined, and not renamed, so that instructions can be counted
/// in it alone.
#[allow(unsafe_code, reason = "the name is used once in the program")]
#[no_mangle]
#[inline(never)]
pub fn wosthile_bench_repeat(row: &Row, side: Side, lent: &mut Lent, times: u64) {
    for _ in 0..times {
        black_box(black_box(row).call(side, black_box(lent)));
    }
}

fn elapsed(row: &Row, work: Work, times: u64) -> Duration {
    match work {
        Work::Call(side) => {
            let mut lent = Lent::holding(0);
            let begin = Instant::now();
            wosthile_bench_repeat(row, side, &mut lent, times);
            begin.elapsed()
        }
        Work::Memcpy => {
            let handed_in = row.files.concat();
            let mut copied = vec![0; handed_in.len()];
            let begin = Instant::now();
            for _ in 0..times {
                black_box(copied.as_mut_slice()).copy_from_slice(black_box(&handed_in));
            }
            begin.elapsed()
        }
    }
}

/// How many calls fill a round; trying it out warms the caches, too.
fn calls_in_a_round(row: &Row, work: Work) -> u64 {
    let mut times = 1;
    while elapsed(row, work, times) < ROUND {
        times *= 2;
    }
    times
}

/// Work on a row, how many times it fills a round, and its fastest round so far.
struct Timed<'a> {
    row: &'a Row,
    work: Work,
    calls: u64,
    fastest: f64,
}

impl<'a> Timed<'a> {
    fn new(row: &'a Row, work: Work) -> Self {
        Timed {
            row,
            work,
            calls: calls_in_a_round(row, work),
            fastest: f64::INFINITY,
        }
    }

    fn go_round(&mut self) {
        let round = elapsed(self.row, self.work, self.calls);
        let each = round.as_nanos() as f64 / self.calls as f64;
        self.fastest = self.fastest.min(each);
    }
}

/// One run: times all work on every row. Each round goes over all rows, so that a slow moment of
/// the machine does not meet one row alone.
pub fn time(rows: &[Row]) -> Vec<Times> {
    let works = [
        Work::Call(Side::Library),
        Work::Call(Side::Second),
        Work::Memcpy,
    ];
    let mut timed: Vec<[Timed; 3]> = rows
        .iter()
        .map(|row| works.map(|work| Timed::new(row, work)))
        .collect();
    for _ in 0..ROUNDS {
        timed.iter_mut().flatten().for_each(Timed::go_round);
    }
    timed
        .iter()
        .map(|[library, second, memcpy]| Times {
            library: library.fastest,
            second: second.fastest,
            memcpy: memcpy.fastest,
        })
        .collect()
}

/// Both sides give the same answer and leave the same bytes, and only a row that is there for it is
/// refused; otherwise their times say nothing.
pub fn is_sound(row: &Row) -> bool {
    let (mut ours, mut theirs) = (Lent::holding(7), Lent::holding(7));
    let answer = row.call(Side::Library, &mut ours);
    let same = answer == row.call(Side::Second, &mut theirs) && ours == theirs;
    let refused = answer.0 != ACCEPTED;
    same && refused == (row.group == Group::Refused)
}
