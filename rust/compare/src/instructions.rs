//! How many instructions a work takes: by the machine's own counter where there is one, or by callgrind.

use std::fs::{self, File};
use std::io::{self, BufRead, BufReader, Read};
use std::os::fd::FromRawFd;
use std::process::{Command, Stdio};

/// The counter of the thread that opened it, of its own instructions alone.
pub struct Counter(File);

impl Counter {
    /// Linux's perf_event_open; an error says why the machine doesn't count.
    pub fn open() -> io::Result<Counter> {
        /// The first form of Linux's perf_event_attr.
        #[repr(C)]
        #[derive(Default)]
        struct Wanted {
            kind: u32,
            size: u32,
            config: u64,
            sampling: [u64; 3],
            flags: u64,
            unused: [u64; 2],
        }
        extern "C" {
            fn syscall(number: i64, ...) -> i64;
        }
        const CALL: i64 = if cfg!(target_arch = "x86_64") { 298 } else { 241 };
        const INSTRUCTIONS: u64 = 1;
        const NOT_KERNEL: u64 = 1 << 5;
        const NOT_HYPERVISOR: u64 = 1 << 6;
        let wanted = Wanted {
            size: std::mem::size_of::<Wanted>() as u32,
            config: INSTRUCTIONS,
            flags: NOT_KERNEL | NOT_HYPERVISOR,
            ..Wanted::default()
        };
        // SAFETY: `wanted` has the layout and size that it says and lives through the call: this
        // thread, any processor, no group, no flags.
        let file = unsafe { syscall(CALL, &wanted, 0i64, -1i64, -1i64, 0i64) };
        if file < 0 {
            return Err(io::Error::last_os_error());
        }
        // SAFETY: the call just gave this descriptor, and nothing else has it.
        Ok(Counter(unsafe { File::from_raw_fd(file as i32) }))
    }

    /// Instructions up to now.
    pub fn read(&mut self) -> u64 {
        let mut count = [0; 8];
        self.0.read_exact(&mut count).expect("the counter");
        u64::from_ne_bytes(count)
    }
}

const NAME: &str = "compare_counted";

/// What callgrind counts: it begins and ends with this function, which has a name that it can be told.
#[no_mangle]
#[inline(never)]
fn compare_counted(work: &mut dyn FnMut(), runs: u32) {
    for _ in 0..runs {
        work();
    }
}

const MARK: &str = "counted";
const RUNS: u32 = 10;

/// Under callgrind: runs a work, and says what was run.
pub fn show(name: &str, bytes: usize, work: &mut dyn FnMut()) {
    compare_counted(work, RUNS);
    println!("{MARK}\t{name}\t{bytes}");
}

/// Runs this program again with `--callgrind`, under callgrind, and prints the instructions of each work that it
/// shows. All else that it prints is printed as it is.
pub fn by_callgrind(held_to: fn(&str) -> bool) -> io::Result<()> {
    let folder = std::env::temp_dir().join(format!("compare-{}", std::process::id()));
    fs::create_dir(&folder)?;
    let mut child = Command::new("valgrind")
        .args(["--quiet", "--tool=callgrind"])
        .args([format!("--toggle-collect={NAME}"), format!("--dump-after={NAME}")])
        .arg(format!("--callgrind-out-file={}", folder.join("out").display()))
        .arg(std::env::current_exe()?)
        .args(std::env::args().skip(1).filter(|word| word != "--instructions"))
        .arg("--callgrind")
        .stdout(Stdio::piped())
        .spawn()?;
    let mut dumps = 0;
    let mut group = Vec::new();
    // A dump may be written only after the line that tells of its work: all are read at the end.
    let output = BufReader::new(child.stdout.take().expect("piped"));
    let lines = output.lines().collect::<io::Result<Vec<String>>>()?;
    let good = child.wait()?.success();
    for line in lines {
        let words: Vec<&str> = line.split('\t').collect();
        if let [MARK, name, bytes] = words[..] {
            dumps += 1;
            let dump = fs::read_to_string(folder.join(format!("out.{dumps}")))?;
            let total = dump.lines().find_map(|line| line.strip_prefix("totals: "));
            let total: f64 = total.expect("a total").trim().parse().expect("a number");
            group.push(Counted {
                name: name.to_string(),
                instructions: total / f64::from(RUNS),
                bytes: bytes.parse().expect("a number"),
            });
            continue;
        }
        print_group(&mut group, held_to);
        println!("{line}");
    }
    print_group(&mut group, held_to);
    fs::remove_dir_all(&folder)?;
    if good {
        return Ok(());
    }
    Err(io::Error::other("the run under callgrind failed"))
}

struct Counted {
    name: String,
    instructions: f64,
    bytes: f64,
}

fn print_group(group: &mut Vec<Counted>, held_to: fn(&str) -> bool) {
    let held = group.iter().find(|one| held_to(&one.name));
    let held = held.map(|one| one.instructions);
    for Counted { name, instructions, bytes } in group.drain(..) {
        print!("  {name:<36} {instructions:>11.0} instructions");
        print!("  {:>7.2} a byte", instructions / bytes);
        if let Some(held) = held {
            print!("  {:>6.2} times as few", held / instructions);
        }
        println!();
    }
}
