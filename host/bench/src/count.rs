//! Counts the reader's instructions, which no other program on the machine blurs. It needs valgrind.

use std::process::{Command, Stdio};

/// The word for the run that is counted; the family and the place of its size follow.
pub const COUNTED: &str = "counted";

/// The instructions of one call of the reader for each text of the family at this size. Fills of memory are left out: a processor
/// may do one with a single instruction, and what they cost is timed as zeroing.
pub fn instructions(family: &str, at: usize) -> Result<u64, String> {
    let program = std::env::current_exe().map_err(|error| error.to_string())?;
    let profile = std::env::temp_dir().join(format!("bench-{}.callgrind", std::process::id()));
    let run = Command::new("valgrind")
        .args(["--tool=callgrind", "--toggle-collect=bench::counted*"])
        .arg(format!("--callgrind-out-file={}", profile.display()))
        .arg(program)
        .args([COUNTED, family, &at.to_string()])
        .stdout(Stdio::null())
        .stderr(Stdio::null())
        .status()
        .map_err(|error| format!("valgrind: {error}"))?;
    if !run.success() {
        return Err(format!("valgrind: {run}"));
    }
    let report = Command::new("callgrind_annotate")
        .arg("--threshold=100")
        .arg(&profile)
        .output()
        .map_err(|error| format!("callgrind_annotate: {error}"))?;
    // The profile may stay where it is if it can't be removed: it has served.
    let _ = std::fs::remove_file(&profile);
    match own(&String::from_utf8_lossy(&report.stdout)) {
        0 => Err("valgrind counted nothing".to_owned()),
        count => Ok(count),
    }
}

/// The sum of a report's lines (a count, its part of the whole, a file and a function), without the C library's `memset`.
fn own(report: &str) -> u64 {
    report
        .lines()
        .filter(|line| line.contains("%)") && !line.contains(":__memset") && !line.contains("PROGRAM TOTALS"))
        .filter_map(|line| line.trim_start().split(' ').next()?.replace(',', "").parse::<u64>().ok())
        .sum()
}

#[cfg(test)]
mod tests {
    use super::*;

    #[test]
    fn fills_are_left_out() {
        let report = "\
31,525,180 (100.0%)  PROGRAM TOTALS

Ir                  file:function
20,000,100 (63.44%)  ./string/memset-vec-unaligned-erms.S:__memset_avx2_unaligned_erms [libc.so.6]
11,525,000 (36.56%)  ???:export::cabbagelute_read_in [bench]
        60 ( 0.00%)  ./string/memmove-vec-unaligned-erms.S:__memcpy_avx_unaligned_erms [libc.so.6]
        20 ( 0.00%)  ???:passes::sums::sum_on [bench]
";
        assert_eq!(own(report), 11_525_080);
    }
}
