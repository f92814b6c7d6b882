//! CPU time, peak memory, and sums of answers.

#[repr(C)]
struct Time {
    seconds: i64,
    nanoseconds: i64,
}

unsafe extern "C" {
    fn clock_gettime(clock: i32, time: *mut Time) -> i32;
}

// The clock of the CPU time of this process on Linux.
const OF_PROCESS: i32 = 2;

fn now() -> f64 {
    let mut time = Time {
        seconds: 0,
        nanoseconds: 0,
    };
    unsafe { clock_gettime(OF_PROCESS, &mut time) };
    time.seconds as f64 + 1e-9 * time.nanoseconds as f64
}

/// Prints the CPU time of one part after another.
pub struct Meter {
    begun: f64,
}

impl Meter {
    pub fn new() -> Meter {
        Meter { begun: now() }
    }

    pub fn part(&mut self, name: &str) {
        self.share(name, 1);
    }

    pub fn share(&mut self, name: &str, count: u32) {
        println!(
            "{name:20} {:12.3} ms",
            1000.0 * (now() - self.begun) / f64::from(count)
        );
        self.begun = now();
    }
}

/// Prints the peak of the memory of this process.
pub fn memory() {
    let status = std::fs::read_to_string("/proc/self/status").unwrap_or_default();
    if let Some(line) = status.lines().find(|line| line.starts_with("VmHWM")) {
        println!("{line}");
    }
}

/// A sum of an answer, which differs if the answer does (FNV).
pub struct Sum;

impl Sum {
    pub fn of(values: impl Iterator<Item = u64>) -> String {
        let fold = |sum: u64, value: u64| (sum ^ value).wrapping_mul(0x0000_0100_0000_01B3);
        format!("{:016x}", values.fold(0xCBF2_9CE4_8422_2325, fold))
    }
}
