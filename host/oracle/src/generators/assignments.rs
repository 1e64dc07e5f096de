//! Systems of assignments, around the limit too, and chains.

use super::random::Random;
use super::{Scale, Sink};
use std::fmt::Write;

/// The last lines of a system: nothing, or fields that use its names.
const ENDS: [&str; 4] = ["", "Name: ${a}${c}", "Libs: ${b} x${a} ${n}", "Cflags: ${n}\nURL: ${b}\n"];

pub(super) fn systems(seed: u64, scale: Scale, sink: Sink) {
    let parts = ["x", "${a}", "${b}", "${c}", "${n}"];
    let mut values = vec![String::new()];
    values.extend(parts.iter().map(|part| (*part).to_owned()));
    for first in parts {
        values.extend(parts.iter().map(|second| format!("{first}{second}")));
    }
    let mut ends = ENDS.into_iter().cycle();
    let mut end = || ends.next().expect("it goes round");
    // All systems of three names, each with up to two parts.
    for a in &values {
        for b in &values {
            for c in &values {
                sink(format!("b={b}\nc={c}\na={a}\n{}", end()).as_bytes());
            }
        }
    }
    // All systems of four names, each with up to one part.
    let single = ["", "x", "${a}", "${b}", "${c}", "${d}", "${n}"];
    for a in single {
        for b in single {
            for c in single {
                for d in single {
                    sink(format!("a={a}\nd={d}\nc={c}\nb={b}\n{}", end()).as_bytes());
                }
            }
        }
    }
    // Random systems of four names, each with up to four parts.
    let parts = ["x", "yy", "${a}", "${b}", "${c}", "${d}", "${n}", "${a}", "${b}", "${c}", "${d}"];
    let mut random = Random::new(seed);
    for _ in 0..if scale == Scale::Small { 2_000 } else { 200_000 } {
        let mut text = String::new();
        for name in ["d", "c", "b", "a"] {
            let value: String = (0..random.below(5)).map(|_| random.pick(&parts)).collect();
            writeln!(text, "{name}={value}").expect("a string takes all");
        }
        text += random.pick(&ENDS);
        sink(text.as_bytes());
    }
}

/// Five steps of sixteen times each, from 64 bytes to 67,108,864. Falling names make each step wait for the next pass.
struct Steps {
    prefix: &'static str,
    falling: bool,
}

impl Steps {
    fn reference(&self, step: usize) -> String {
        format!("${{{}{}}}", self.prefix, self.name(step))
    }

    fn name(&self, step: usize) -> usize {
        if self.falling { 5 - step } else { step }
    }

    fn assignments(&self) -> String {
        let mut text = format!("{}{}={}\n", self.prefix, self.name(0), "0123456789abcdef".repeat(4));
        for step in 1..=5 {
            let value = self.reference(step - 1).repeat(16);
            writeln!(text, "{}{}={value}", self.prefix, self.name(step)).expect("a string takes all");
        }
        text
    }

    /// Half the limit, as an assignment to `<prefix>h`.
    fn half(&self) -> String {
        format!("{}h={}\n", self.prefix, self.reference(4).repeat(8))
    }
}

pub(super) fn limit(seed: u64, scale: Scale, sink: Sink) {
    // V is a value at the limit, H half of it, N is missing, S the name itself, P to R the others.
    let values = [
        "x", "V", "Vx", "xV", "VxN", "NVx", "VNx", "HH", "HHx", "H", "P", "Px", "Q", "Qx", "PP", "QP", "VP",
        "PV", "PxN", "S", "VxS", "SVx", "xPQ", "HP", "HQP", "R", "Rx", "HR", "",
    ];
    let ends = ["", "", "Libs: ${p} ${q} ${r}", "Name: ${p}x", "Libs: ${q} ${none}", "Cflags: ${r}"];
    let mut random = Random::new(seed);
    for _ in 0..if scale == Scale::Small { 60 } else { 3_000 } {
        let names: &[&str] = if random.below(2) == 0 { &["p", "q", "r"] } else { &["p", "q", "r", "s"] };
        let (prefix, falling) =
            *random.pick(&[&("k", false), &("k", true), &("z", false), &("z", true), &("q.", false)]);
        let steps = Steps { prefix, falling };
        let mut system = String::new();
        for (at, name) in names.iter().enumerate() {
            write!(system, "{name}=").expect("a string takes all");
            for symbol in random.pick(&values).chars() {
                let other = |step: usize| format!("${{{}}}", names[(at + step) % names.len()]);
                system += &match symbol {
                    'V' => steps.reference(5),
                    'H' => format!("${{{prefix}h}}"),
                    'N' => "${none}".to_owned(),
                    'S' => other(0),
                    'P' => other(1),
                    'Q' => other(2),
                    'R' => other(names.len() - 1),
                    plain => plain.to_string(),
                };
            }
            system.push('\n');
        }
        // Half the limit is assigned only where it is used: at its size, that saves time.
        let half = if system.contains("h}") { steps.half() } else { String::new() };
        let end = random.pick(&ends);
        sink(format!("{}{half}{system}{end}", steps.assignments()).as_bytes());
    }
}

pub(super) fn chains(seed: u64, scale: Scale, sink: Sink) {
    let mut random = Random::new(seed);
    let lengths: &[usize] =
        if scale == Scale::Small { &[2, 5, 17, 70] } else { &[2, 3, 5, 9, 17, 33, 70, 200, 700, 2_500] };
    for length in lengths {
        for order in ["rising", "falling", "mixed"] {
            // The name of each link, from the one with a plain value to the last.
            let mut names: Vec<usize> = (0..*length).collect();
            match order {
                "falling" => names.reverse(),
                "mixed" => random.shuffle(&mut names),
                _ => {}
            }
            for first in ["x", "", "${none}", "${last}"] {
                let last = format!("${{n{:04}}}", names[length - 1]);
                let first = first.replace("${last}", &last);
                for grows in [false, true] {
                    let mut lines = vec![format!("n{:04}={first}", names[0])];
                    for pair in names.windows(2) {
                        let more = if grows && pair[1] % 3 == 0 { "y" } else { "" };
                        lines.push(format!("n{:04}={more}${{n{:04}}}", pair[1], pair[0]));
                    }
                    if order == "mixed" {
                        random.shuffle(&mut lines);
                    }
                    sink(format!("{}\nName: {last}\nLibs: a{last} {last}\n", lines.join("\n")).as_bytes());
                }
            }
        }
    }
}
