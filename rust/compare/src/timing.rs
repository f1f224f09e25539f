//! Works by turns in one process: their times, or their instructions under callgrind.

use std::time::{Duration, Instant};

use crate::instructions::{self, Counter};
use crate::{argument, asked};

/// This thread's own time: what else the machine does counts less.
fn own_time() -> Duration {
    #[repr(C)]
    struct Time {
        seconds: i64,
        nanoseconds: i64,
    }
    extern "C" {
        fn clock_gettime(clock: i32, time: *mut Time) -> i32;
    }
    const THREAD: i32 = 3;
    let mut time = Time { seconds: 0, nanoseconds: 0 };
    // SAFETY: `time` has the layout of Linux's 64-bit timespec and lives through the call.
    assert_eq!(unsafe { clock_gettime(THREAD, &mut time) }, 0);
    Duration::new(time.seconds as u64, time.nanoseconds as u32)
}

pub struct Measured {
    pub name: String,
    /// Runs in one sample.
    runs: u32,
    /// The time of one run in each, sorted.
    pub samples: Vec<Duration>,
    /// Of one run, where the machine counts them.
    instructions: Option<u64>,
}

impl Measured {
    /// The time that so many tenths of the samples take at most, in microseconds.
    fn tenths(&self, tenths: usize) -> f64 {
        self.samples[self.samples.len() * tenths / 10].as_secs_f64() * 1e6
    }

    fn median(&self) -> f64 {
        self.tenths(5)
    }

    fn print(&self, bytes: usize, held_to: Option<f64>) {
        let Measured { name, runs, samples, instructions } = self;
        let [best, low, median, high] = [0, 1, 5, 9].map(|tenths| self.tenths(tenths));
        print!("  {name:<36} {median:>9.2} µs  {:>7.2} ns a byte", median * 1e3 / bytes as f64);
        if let Some(held_to) = held_to {
            print!("  {:>6.2} times as fast", held_to / median);
        }
        if let Some(count) = instructions {
            print!("  {count:>10} instructions");
        }
        print!("  (best {best:.2}, eight tenths from {low:.2} to {high:.2}; ");
        println!("{} samples of {runs})", samples.len());
    }
}

pub type Work<'a> = (&'a str, Box<dyn FnMut() + 'a>);

/// Of the works the one that all are held to has a name that begins with one of these.
const HELD_TO: [&str; 2] = ["given files of 2.9.5", "pest 2.5.2: P::parse"];

pub fn held_to(name: &str) -> bool {
    HELD_TO.iter().any(|front| name.starts_with(front))
}

/// The first calls find memory that was never touched.
const WARM: usize = 3;

/// Measures all works by turns and prints a line for each; under callgrind, shows them to it.
pub fn measure(budget: Duration, bytes: usize, mut works: Vec<Work<'_>>) -> Vec<Measured> {
    for (_, work) in &mut works {
        for _ in 0..WARM {
            work();
        }
    }
    if asked("--callgrind") {
        for (name, work) in &mut works {
            instructions::show(name, bytes, work);
        }
        return Vec::new();
    }
    let measured = times(budget, works);
    let held = measured.iter().find(|one| held_to(&one.name)).map(Measured::median);
    for one in &measured {
        one.print(bytes, held);
    }
    measured
}

/// Runs all works by turns, for about `budget` each. A sample is long, so that all but its first runs
/// find caches and branches as the work itself leaves them. Samples come sorted.
fn times(budget: Duration, mut works: Vec<Work<'_>>) -> Vec<Measured> {
    let least = Duration::from_micros(argument("--sample", 5_000));
    let mut measured: Vec<Measured> = Vec::new();
    for (name, work) in &mut works {
        let start = own_time();
        let mut runs = 0;
        while own_time() - start < least {
            work();
            runs += 1;
        }
        let instructions = counted(work, runs);
        measured.push(Measured { name: name.to_string(), runs, samples: Vec::new(), instructions });
    }
    let begun = Instant::now();
    while begun.elapsed() < budget * works.len() as u32 || measured[0].samples.len() < 11 {
        for ((_, work), measured) in works.iter_mut().zip(&mut measured) {
            let start = own_time();
            for _ in 0..measured.runs {
                work();
            }
            measured.samples.push((own_time() - start) / measured.runs);
        }
    }
    for one in &mut measured {
        one.samples.sort();
    }
    measured
}

/// The instructions of one run, where the machine counts them.
fn counted(work: &mut dyn FnMut(), runs: u32) -> Option<u64> {
    let mut counter = Counter::open().ok()?;
    let before = counter.read();
    for _ in 0..runs {
        work();
    }
    Some((counter.read() - before) / u64::from(runs))
}

/// What the numbers are.
pub fn heading(seed: u64) -> String {
    if asked("--callgrind") {
        return format!("seed {seed}; instructions of one run, by callgrind");
    }
    let counts = match Counter::open() {
        Ok(_) => "instructions by its counter".to_string(),
        Err(why) => format!("the machine doesn't count instructions ({why}), --instructions does"),
    };
    format!("seed {seed}; medians of this thread's own time; {counts}")
}
