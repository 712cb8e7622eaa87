//! The time and the peak memory of one process.
use crate::image::Fault;
use std::io;
use std::process::{exit, Command};
use std::time::Instant;

/// As `wait4` of the C library fills it.
#[repr(C)]
#[derive(Default)]
struct Usage {
    times: [i64; 4],
    peak_kib: i64,
    rest: [i64; 13],
}

extern "C" {
    fn wait4(process: i32, status: *mut i32, options: i32, usage: *mut Usage) -> i32;
}

/// Runs a program to its end, and writes its nanoseconds and the most KiB that it had in memory as the last line of
/// standard error. Ends with status 1 where the program did not end well.
pub fn measure(program: &str, words: &[String]) -> Result<(), Fault> {
    let mut usage = Usage::default();
    let mut status = 0;
    let start = Instant::now();
    let child = Command::new(program).args(words).spawn()?;
    let process = child.id() as i32;
    // The child is waited for here alone, and `usage` has the C library's form.
    if unsafe { wait4(process, &mut status, 0, &mut usage) } != process {
        return Err(io::Error::last_os_error().into());
    }
    eprintln!("{} {}", start.elapsed().as_nanos(), usage.peak_kib);
    exit(i32::from(status != 0))
}
