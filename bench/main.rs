//! Times the proved library against an independent implementation in plain Rust (plain.rs): same machine, same input, both
//! optimised, in one run. What the two answer is compared before anything is timed.

#[allow(dead_code)]
#[path = "../embedding/hekudoja.rs"]
mod hekudoja;
mod plain;

use std::hint::black_box;
use std::time::Instant;

const STATIONS: usize = 2048;

/// A small generator with a fixed seed, so that every run has the same input.
struct Generator(u64);

impl Generator {
    fn below(&mut self, n: u64) -> u64 {
        self.0 ^= self.0 << 13;
        self.0 ^= self.0 >> 7;
        self.0 ^= self.0 << 17;
        self.0 % n
    }
}

/// Rough ground: a slow wander with noise on it, within the limits.
fn ground(generator: &mut Generator) -> Vec<i64> {
    let mut height = 0i64;
    (0..STATIONS)
        .map(|_| {
            height = (height + generator.below(2001) as i64 - 1000).clamp(-90_000, 90_000);
            height + generator.below(4001) as i64 - 2000
        })
        .collect()
}

fn profile_sheet(heights: &[i64]) -> String {
    let lines = heights.iter().enumerate().map(|(i, h)| format!("{i},{h}\n"));
    "station,height\n".to_string() + &lines.collect::<String>()
}

/// 24 passes, the most there may be: 16 triples and 8 pairs, with a scale of 2^40.
fn schedule_sheet(first: &str, second: &str) -> String {
    "taps,a,b,c\n".to_string() + &format!("{first}{second}{first}").repeat(8)
}

/// The shortest of many runs, in microseconds.
fn time(mut call: impl FnMut()) -> f64 {
    let mut best = f64::MAX;
    for _ in 0..400 {
        let start = Instant::now();
        call();
        best = best.min(start.elapsed().as_secs_f64() * 1e6);
    }
    best
}

/// Both calls in turn, several times over, so that neither has the machine to itself for long.
fn against(name: &str, mut proved: impl FnMut(), mut plain: impl FnMut()) {
    let (mut a, mut b) = (f64::MAX, f64::MAX);
    for _ in 0..5 {
        a = a.min(time(&mut proved));
        b = b.min(time(&mut plain));
    }
    println!("{name:<42} {a:>9.2} {b:>9.2} {:>7.2}", a / b);
}

fn main() {
    let mut generator = Generator(0x9E37_79B9_7F4A_7C15);
    let heights = ground(&mut generator);
    let profile = profile_sheet(&heights);
    let schedule = schedule_sheet("3,1,2,1\n", "2,1,1,\n");
    let other = schedule_sheet("2,1,1,\n", "3,1,2,1\n");
    let input = schedule.clone() + "\n" + &profile;
    let (schedule, other, profile, input) = (schedule.as_bytes(), other.as_bytes(), profile.as_bytes(), input.as_bytes());
    let passes = plain::read_schedule(schedule).unwrap();

    println!("{STATIONS} stations, {} passes, {} bytes; microseconds, the shortest of 2,000 runs", passes.len(), input.len());
    println!("{:<42} {:>9} {:>9} {:>7}", "", "proved", "plain", "ratio");

    // The last level.
    let (mut work, mut plain_work) = (vec![7; STATIONS], vec![7; STATIONS]);
    let proved_level = hekudoja::draw(schedule, 24, &heights, &mut work).unwrap();
    let plain_passes = plain::read_schedule(schedule).unwrap();
    let plain_level = plain::draw(&plain_passes, &heights, &mut plain_work).unwrap();
    assert_eq!((proved_level.length, proved_level.scale), plain_level);
    assert_eq!(work, plain_work);
    against(
        "draw the last level",
        || {
            black_box(hekudoja::draw(black_box(schedule), 24, black_box(&heights), &mut work)).unwrap();
        },
        || {
            let passes = plain::read_schedule(black_box(schedule)).unwrap();
            black_box(plain::draw(&passes, black_box(&heights), &mut plain_work)).unwrap();
        },
    );

    // The turns of every level.
    let (mut counts, mut plain_counts) = (vec![0; 25], vec![0; 25]);
    let mut turns = Vec::with_capacity(STATIONS);
    let levels = hekudoja::count_turns(schedule, &heights, &mut counts).unwrap();
    assert_eq!(levels, plain::count_turns(&passes, &heights, &mut plain_work, &mut turns, &mut plain_counts).unwrap());
    assert_eq!(counts, plain_counts);
    against(
        "all 25 levels with their turns",
        || {
            black_box(hekudoja::count_turns(black_box(schedule), black_box(&heights), &mut counts)).unwrap();
        },
        || {
            let passes = plain::read_schedule(black_box(schedule)).unwrap();
            black_box(plain::count_turns(&passes, black_box(&heights), &mut plain_work, &mut turns, &mut plain_counts)).unwrap();
        },
    );

    // Comparing.
    for (x, y) in [(schedule, other), (schedule, schedule)] {
        let plain = plain::compare(&plain::read_schedule(x).unwrap(), &plain::read_schedule(y).unwrap());
        assert_eq!(hekudoja::compare(x, y).unwrap(), plain);
    }
    against(
        "compare two schedule sheets",
        || {
            black_box(hekudoja::compare(black_box(schedule), black_box(other))).unwrap();
        },
        || {
            let x = plain::read_schedule(black_box(schedule)).unwrap();
            let y = plain::read_schedule(black_box(other)).unwrap();
            black_box(plain::compare(&x, &y));
        },
    );

    // Reading and writing.
    let (mut read, mut plain_read) = (vec![0; STATIONS], Vec::with_capacity(STATIONS));
    assert_eq!(hekudoja::read_profile(profile, &mut read).unwrap(), STATIONS);
    plain::read_profile(profile, &mut plain_read).unwrap();
    assert_eq!(read, plain_read);
    against(
        "read a full profile sheet",
        || {
            black_box(hekudoja::read_profile(black_box(profile), &mut read)).unwrap();
        },
        || plain::read_profile(black_box(profile), &mut plain_read).unwrap(),
    );
    let (mut written, mut plain_written) = (vec![0; 1024], Vec::with_capacity(1024));
    let size = hekudoja::reduce_schedule(schedule, &mut written).unwrap();
    plain::write_schedule(&passes, &mut plain_written);
    assert_eq!(written[..size], plain_written);
    against(
        "read and write a full schedule sheet",
        || {
            black_box(hekudoja::reduce_schedule(black_box(schedule), &mut written)).unwrap();
        },
        || {
            let passes = plain::read_schedule(black_box(schedule)).unwrap();
            plain::write_schedule(&passes, &mut plain_written);
        },
    );

    // The whole command.
    let (mut out, mut plain_out) = (vec![0; hekudoja::OUTPUT], Vec::with_capacity(hekudoja::OUTPUT));
    let mut room = plain::Room::default();
    let size = hekudoja::answer(input, &mut out).unwrap();
    plain::answer(input, &mut room, &mut plain_out);
    assert!(out[..size] == plain_out[..]);
    against(
        "the whole command on bytes",
        || {
            black_box(hekudoja::answer(black_box(input), &mut out)).unwrap();
        },
        || plain::answer(black_box(input), &mut room, &mut plain_out),
    );
    println!("{size} bytes listed");
}
