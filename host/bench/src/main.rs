//! Times the proved reader and upstream's Rust in one process, on the same texts.
//!
//! Usage: `bench [write] [FAMILY ..]`, without families for all. With `write`, the result goes to `docs/SPEED.md` too, with the
//! reader's instructions as valgrind counts them. Build it with `--release`. Times on different machines say nothing; the ratios do.

mod count;
mod families;

use cabbagelute::{PkgConfig, raw};
use families::{FAMILIES, Family, SIZES, Texts};
use std::fmt::Write;
use std::hint::black_box;
use std::path::Path;
use std::process::ExitCode;
use std::time::{Duration, Instant};

/// For how long each of the four is timed in a round, at least once.
const BUDGET: Duration = Duration::from_millis(500);

/// How many rounds there are. Their ratios show how far runs differ.
const ROUNDS: usize = 3;

/// The shortest time that is taken as one measurement.
const MEASUREMENT: Duration = Duration::from_millis(5);

fn main() -> ExitCode {
    let mut asked: Vec<String> = std::env::args().skip(1).collect();
    if let [word, name, at] = asked.as_slice() {
        if word == count::COUNTED {
            return run_counted(name, at);
        }
    }
    let write = asked.first().is_some_and(|word| word == "write");
    if write {
        asked.remove(0);
    }
    if let Some(unknown) = asked.iter().find(|name| FAMILIES.iter().all(|family| family.name != **name)) {
        eprintln!("bench: there is no family {unknown}");
        return ExitCode::FAILURE;
    }
    if write && !asked.is_empty() {
        eprintln!("bench: docs/SPEED.md is about all families");
        return ExitCode::FAILURE;
    }

    let mut rows = Vec::new();
    println!(
        "family, text: Rust, reader, crate, zeroing in microseconds; times as fast (reader, crate); growth; verdict"
    );
    for family in FAMILIES {
        if asked.is_empty() || asked.iter().any(|name| name == family.name) {
            let mut measured = measure(family);
            if write {
                if let Err(error) = count_instructions(family, &mut measured) {
                    eprintln!("bench: {error}");
                    return ExitCode::FAILURE;
                }
            }
            for row in &measured {
                println!("{row}");
            }
            rows.extend(measured);
        }
    }
    let missed = rows.iter().filter(|row| row.verdict.contains("MISSED")).count();
    println!("{missed} bars missed");
    if write {
        let path = Path::new(env!("CARGO_MANIFEST_DIR")).join("../../docs/SPEED.md");
        if let Err(error) = std::fs::write(&path, page(&rows)) {
            eprintln!("bench: {}: {error}", path.display());
            return ExitCode::FAILURE;
        }
    }
    ExitCode::SUCCESS
}

/// One line of the result.
struct Row {
    family: &'static str,
    bytes: usize,
    /// Microseconds for upstream's Rust, the reader alone, and the crate around it.
    times: [f64; 3],
    /// Microseconds for zeroing the workspace alone, which each call must do.
    zeroing: f64,
    /// How many times as fast as the Rust the reader was in the round where that was least, and where it was most.
    range: [f64; 2],
    /// How many times the reader's time grew from the row before.
    growth: Option<f64>,
    /// How many times that of zeroing alone grew.
    zeroing_growth: Option<f64>,
    /// The reader's instructions, where they were counted.
    instructions: Option<u64>,
    /// How many times they grew.
    instructions_growth: Option<f64>,
    verdict: String,
}

impl Row {
    /// How many times as fast as the Rust the reader and the crate are.
    fn ratios(&self) -> [f64; 2] {
        let [rust, reader, whole] = self.times;
        [rust / reader, rust / whole]
    }
}

/// A growth, if there is one.
fn shown(growth: Option<f64>) -> String {
    growth.map_or(String::new(), |growth| format!("{growth:.2}"))
}

impl std::fmt::Display for Row {
    fn fmt(&self, f: &mut std::fmt::Formatter<'_>) -> std::fmt::Result {
        let [rust, reader, whole] = self.times;
        let [reader_ratio, crate_ratio] = self.ratios();
        write!(
            f,
            "{:10} {:6}: {rust:10.1} {reader:9.1} {whole:9.1} {:7.1}; {reader_ratio:7.2} {crate_ratio:7.2}; {:4}; {}",
            self.family,
            self.bytes,
            self.zeroing,
            shown(self.growth),
            self.verdict
        )
    }
}

/// The texts of each size of the family.
fn sets(family: &Family) -> Vec<Vec<Vec<u8>>> {
    match family.texts {
        Texts::Growing(make) => SIZES.iter().map(|bytes| vec![make(*bytes).into_bytes()]).collect(),
        Texts::One(make) => vec![vec![make().into_bytes()]],
        Texts::Many(make) => vec![make()],
    }
}

/// One call for each text of the family at the size of this place, for valgrind to count.
fn run_counted(name: &str, at: &str) -> ExitCode {
    let family = FAMILIES.iter().find(|family| family.name == name);
    let texts =
        family.zip(at.parse::<usize>().ok()).and_then(|(family, at)| sets(family).into_iter().nth(at));
    let Some(texts) = texts else {
        eprintln!("bench: there is no size {at} of a family {name}");
        return ExitCode::FAILURE;
    };
    let mut buffers = Buffers::for_texts(&texts);
    for text in texts.iter().filter(|text| std::str::from_utf8(text).is_ok()) {
        black_box(counted(&mut buffers, text));
    }
    ExitCode::SUCCESS
}

/// The call that is counted, by this name.
#[inline(never)]
fn counted(buffers: &mut Buffers, text: &[u8]) -> raw::Outcome {
    buffers.read(text)
}

/// Fills in the instructions of a family's rows.
fn count_instructions(family: &Family, rows: &mut [Row]) -> Result<(), String> {
    let mut before: Option<u64> = None;
    for (at, row) in rows.iter_mut().enumerate() {
        let now = count::instructions(family.name, at)?;
        row.instructions = Some(now);
        row.instructions_growth = before.map(|before| now as f64 / before as f64);
        before = Some(now);
    }
    Ok(())
}

fn measure(family: &Family) -> Vec<Row> {
    let sets = sets(family);
    let mut rows: Vec<Row> = Vec::new();
    let last = sets.len() - 1;
    for (at, texts) in sets.iter().enumerate() {
        let rounds: [[f64; 4]; ROUNDS] = std::array::from_fn(|_| time(texts));
        let [rust, reader, whole, zeroing] = best_of(&rounds);
        let ratios = rounds.map(|[rust, reader, ..]| rust / reader);
        let range = [
            ratios.iter().copied().fold(f64::INFINITY, f64::min),
            ratios.iter().copied().fold(0.0, f64::max),
        ];
        let growth = rows.last().map(|before| reader / before.times[1]);
        let zeroing_growth = rows.last().map(|before| zeroing / before.zeroing);
        let bytes = texts.iter().map(Vec::len).sum();
        let times = [rust, reader, whole];
        let mut row = Row {
            family: family.name,
            bytes,
            times,
            zeroing,
            range,
            growth,
            zeroing_growth,
            instructions: None,
            instructions_growth: None,
            verdict: String::new(),
        };
        row.verdict = verdict(family, &row, at == last);
        rows.push(row);
    }
    rows
}

/// The best time of each of the four.
fn best_of(rounds: &[[f64; 4]]) -> [f64; 4] {
    std::array::from_fn(|which| rounds.iter().map(|round| round[which]).fold(f64::INFINITY, f64::min))
}

/// What the bars say of a row. The ratio counts at the largest size.
fn verdict(family: &Family, row: &Row, largest: bool) -> String {
    let mut words = Vec::new();
    let [ratio, _] = row.ratios();
    if let (true, Some((bar, aim))) = (largest, family.bar) {
        words.push(if ratio >= aim {
            format!("aim {aim} met")
        } else if ratio >= bar {
            format!("bar {bar} met")
        } else {
            format!("bar {bar} MISSED")
        });
    }
    if let (Some(growth), Some(bound)) = (row.growth, family.growth) {
        if growth > bound {
            words.push(format!("growth {bound} MISSED"));
        }
    }
    words.join(", ")
}

/// Microseconds for all the texts: upstream's Rust, the reader alone, the crate around it, and zeroing as much workspace as the
/// reader must. The four take turns, and of each the best turn counts.
fn time(texts: &[Vec<u8>]) -> [f64; 4] {
    let mut buffers = Buffers::for_texts(texts);
    let mut workspace = vec![u32::MAX; buffers.workspace.len()];
    let strings: Vec<&str> = texts.iter().filter_map(|text| std::str::from_utf8(text).ok()).collect();
    let mut subjects: [&mut dyn FnMut(); 4] = [
        &mut || {
            for text in &strings {
                drop(black_box(cuddld_pkg_config::PkgConfig::parse(black_box(text))));
            }
        },
        &mut || {
            for text in &strings {
                black_box(buffers.read(black_box(text.as_bytes())));
            }
        },
        &mut || {
            for text in &strings {
                drop(black_box(PkgConfig::parse(black_box(text))));
            }
        },
        &mut || {
            for text in &strings {
                black_box(&mut workspace)[..raw::workspace_entries(text.len())].fill(0);
            }
        },
    ];
    let mut best = [f64::INFINITY; 4];
    let mut spent = [Duration::ZERO; 4];
    let mut repeats = [1_u32; 4];
    while spent.iter().any(|spent| *spent < BUDGET) {
        for (which, subject) in subjects.iter_mut().enumerate() {
            if spent[which] >= BUDGET {
                continue;
            }
            let start = Instant::now();
            for _ in 0..repeats[which] {
                subject();
            }
            let taken = start.elapsed();
            spent[which] += taken;
            best[which] = best[which].min(taken.as_secs_f64() * 1e6 / f64::from(repeats[which]));
            if taken < MEASUREMENT {
                repeats[which] *= 2;
            }
        }
    }
    best
}

/// What is lent to the reader: made once, and not cleared between calls.
struct Buffers {
    workspace: Vec<u32>,
    pool: Vec<u8>,
    output: Vec<u8>,
}

impl Buffers {
    /// Buffers that are long enough for each of the texts.
    fn for_texts(texts: &[Vec<u8>]) -> Self {
        let longest = texts.iter().map(Vec::len).max().unwrap_or(0);
        let mut buffers = Buffers {
            workspace: vec![u32::MAX; raw::workspace_entries(longest)],
            pool: vec![u8::MAX; longest],
            output: Vec::new(),
        };
        for text in texts {
            let outcome = buffers.read(text);
            if outcome.number == 17 {
                buffers.output = vec![u8::MAX; outcome.detail.value as usize];
            }
        }
        buffers
    }

    fn read(&mut self, text: &[u8]) -> raw::Outcome {
        raw::outcome_in(text, &mut self.workspace, &mut self.pool, &mut self.output)
    }
}

/// `docs/SPEED.md`.
fn page(rows: &[Row]) -> String {
    let processor = std::fs::read_to_string("/proc/cpuinfo").unwrap_or_default();
    let processor = processor.lines().find_map(|line| line.strip_prefix("model name")).unwrap_or(": unknown");
    let mut page = format!(
        "# Speed

Made in `host/` by

    cargo run --release -p bench -- write

Upstream's Rust and the proved reader in one process, both x86-64, on the same texts, all built for release. The four take
turns, and of each the best turn of {ROUNDS} rounds counts. Times are in microseconds and say little on another machine; the ratios
should hold. Processor{}.

- Rust: upstream's `PkgConfig::parse`, and dropping what it gives.
- reader: `cabbagelute_read_in` alone. Its buffers were made once and are not cleared between calls.
- crate: `PkgConfig::parse` of the crate `cabbagelute`: it makes all buffers, calls the reader, and copies the values into
  strings, which are dropped.
- zeroing: a fill of the first 12n + 64 workspace entries with 0 and nothing else. Each call ends with it (document 01,
  \"Buffers\"), so no reader takes less; to look whether all is 0 takes as long (docs/DECISIONS.md).
- rounds: the least and the greatest Rust / reader of the {ROUNDS} rounds, which shows how far runs differ.
- instructions: those of the reader's calls as valgrind counts them, without fills of memory. No noise is in them.

The verdict is about the reader: how many times as fast as the Rust at the largest size, and how its time grows where the text
doubles. The last number but the verdict is how its instructions grow.

| family | bytes | Rust | reader | crate | zeroing | Rust / reader | rounds | Rust / crate | growth | instructions | growth | verdict |
|---|---|---|---|---|---|---|---|---|---|---|---|---|
",
        processor.trim_start()
    );
    for row in rows {
        let [rust, reader, whole] = row.times;
        let [reader_ratio, crate_ratio] = row.ratios();
        let [low, high] = row.range;
        writeln!(
            page,
            "| {} | {} | {rust:.1} | {reader:.1} | {whole:.1} | {:.1} | {reader_ratio:.2} | {low:.2} to {high:.2} | {crate_ratio:.2} | {} | {} | {} | {} |",
            row.family,
            row.bytes,
            row.zeroing,
            shown(row.growth),
            row.instructions.map_or(String::new(), |count| count.to_string()),
            shown(row.instructions_growth),
            row.verdict
        )
        .expect("a string takes all");
    }
    page += "\nThe families:\n\n";
    for family in FAMILIES {
        writeln!(page, "- {}: {}.", family.name, family.about).expect("a string takes all");
    }
    page += "\nBars that are missed, and why:\n\n";
    let missed: Vec<&Row> = rows.iter().filter(|row| row.verdict.contains("MISSED")).collect();
    for row in &missed {
        writeln!(page, "- {} at {} bytes, {}: {}", row.family, row.bytes, row.verdict, reason(row))
            .expect("a string takes all");
    }
    if missed.is_empty() {
        page += "- None.\n";
    }
    page += "\nGrowth that no bar bounds:\n\n";
    for name in ["reversed", "wide"] {
        let growths: Vec<String> = rows
            .iter()
            .filter(|row| row.family == name)
            .filter_map(|row| row.growth)
            .map(|growth| format!("{growth:.2}"))
            .collect();
        writeln!(page, "- {name}: {} for each doubling.", growths.join(" and ")).expect("a string takes all");
    }
    page += "
Their V names take V passes, since each name waits for the one after it in byte order. The reader keeps names in 32 blocks,
and a pass goes only over blocks in which a name waits for a value that was just found: about V / 32 names a pass, so V\u{b2} / 32
visits in all. A visit goes on where the last one of that name stopped. Document 01 fixes what the passes find, and so the
answers 15 and 16, but not how many names are looked at.
";
    page
}

/// Whether the row misses this one of its bars.
fn misses(row: &Row, bar: &str) -> bool {
    row.verdict.split(", ").any(|part| part.starts_with(bar) && part.ends_with("MISSED"))
}

/// Why a row misses its bars.
fn reason(row: &Row) -> String {
    let [rust, reader, _] = row.times;
    let mut words = Vec::new();
    if misses(row, "bar") {
        words.push(match row.family {
            "string" | "comment" => format!(
                "zeroing alone is {:.0} of the reader's {reader:.0} microseconds, so no reader is more than {:.2} times as fast \
                 as the Rust here",
                row.zeroing,
                rust / row.zeroing
            ),
            _ => format!("the reader takes {reader:.1} microseconds, {:.1} of them for zeroing", row.zeroing),
        });
    }
    if misses(row, "growth") {
        words.push(format!(
            "the reader's instructions grow {:.2} times, but zeroing alone takes {:.2} times as long, where the workspace \
             outgrows a cache",
            row.instructions_growth.unwrap_or(f64::NAN),
            row.zeroing_growth.unwrap_or(f64::NAN)
        ));
    }
    words.join("; ") + "."
}

#[cfg(test)]
mod tests {
    use super::*;

    /// The page says of each bar that is missed why, and how the families without a bound grow.
    #[test]
    fn page_explains_what_is_missed() {
        let row = |family, verdict: &str| Row {
            family,
            bytes: 65_535,
            times: [50.0, 200.0, 300.0],
            zeroing: 100.0,
            range: [0.24, 0.26],
            growth: Some(2.5),
            zeroing_growth: Some(3.0),
            instructions: Some(4_000_000),
            instructions_growth: Some(2.01),
            verdict: verdict.to_owned(),
        };
        let page = page(&[row("comment", "bar 0.5 MISSED, growth 2.3 MISSED"), row("reversed", "")]);
        assert!(page.contains("zeroing alone is 100 of the reader's 200 microseconds"), "{page}");
        assert!(page.contains("no reader is more than 0.50 times as fast"), "{page}");
        assert!(
            page.contains("instructions grow 2.01 times, but zeroing alone takes 3.00 times as long"),
            "{page}"
        );
        assert!(page.contains("- reversed: 2.50 for each doubling."), "{page}");
        let met = super::page(&[row("string", "bar 0.5 met, growth 2.3 MISSED")]);
        assert!(!met.contains("no reader is more than"), "{met}");
        assert!(
            met.contains("bar 0.5 met, growth 2.3 MISSED: the reader's instructions grow 2.01 times"),
            "{met}"
        );
    }
}
