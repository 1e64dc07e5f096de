//! The tables of docs/INSURER.md: what they say of this reader, and of upstream's Rust where it can say it.

use cabbagelute::{PkgConfig, raw};

const PAGE: &str = include_str!("../../../docs/INSURER.md");

/// The cells of the rows below the heading of this table.
fn rows(heading: &str) -> Vec<Vec<&'static str>> {
    let below = PAGE.split_once(heading).expect("the table's heading stands in the page").1;
    let rows = below.lines().skip(1).take_while(|line| line.starts_with('|'));
    rows.map(|line| line.trim_matches('|').split(" | ").map(str::trim).collect()).collect()
}

/// What stands between backticks in a cell.
fn quoted(cell: &str) -> Vec<String> {
    cell.split('`').skip(1).step_by(2).map(|text| text.replace('⏎', "\n").replace('␠', " ")).collect()
}

/// The number that a text gets from the reader, with room for everything.
fn number(text: &[u8], entries: usize, pool: usize, output: usize) -> u32 {
    let (mut workspace, mut pool, mut output) = (vec![7; entries], vec![7; pool], vec![7; output]);
    raw::outcome_in(text, &mut workspace, &mut pool, &mut output).number
}

/// The number that the reader gives with enough lent, after the Rust has given the same.
fn agreed_number(text: &str) -> u32 {
    let here = number(text.as_bytes(), raw::workspace_entries(text.len()), text.len(), 4096);
    assert_eq!(u32::from(oracle::answer(text.as_bytes()).number()), here, "{text:?}");
    here
}

#[test]
fn texts_that_others_read_otherwise() {
    let rows = rows("| text | pkgconf 1.8.1 | this reader |\n");
    assert_eq!(rows.len(), 14);
    for row in rows {
        let text = format!("Name: x\nDescription: d\nVersion: 1\n{}\n", quoted(row[0])[0]);
        match row[2].strip_prefix("refused: ") {
            Some(refusal) => assert_eq!(agreed_number(&text).to_string(), refusal, "{text:?}"),
            None => {
                let flags = PkgConfig::parse(&text).expect("it is accepted").cflags;
                assert_eq!(flags, Some(quoted(row[2])), "{text:?}");
                let rust = cuddld_pkg_config::PkgConfig::parse(&text).expect("it is accepted").cflags;
                assert_eq!(rust, flags, "{text:?}");
            }
        }
    }
}

#[test]
fn a_text_for_each_refusal() {
    let rows = rows("| number | why | text |\n");
    let numbers: Vec<u32> = rows.iter().map(|row| row[0].trim().parse().expect("a number")).collect();
    assert_eq!(numbers, (1..=17).collect::<Vec<u32>>());
    for row in &rows[4..15] {
        assert_eq!(agreed_number(&quoted(row[2])[0]).to_string(), row[0].trim(), "{}", row[2]);
    }
}

#[test]
fn the_refusals_that_are_about_buffers_and_limits() {
    assert_eq!(number(&[b' '; 65_536], 0, 0, 0), 1);
    assert_eq!(number(b"a", 12 + 63, 1, 0), 2);
    assert_eq!(number(b"a", 12 + 64, 0, 0), 3);
    assert_eq!(number(b"\x80", 12 + 64, 1, 0), 4);
    assert_eq!(number(b"URL:", 12 * 4 + 64, 4, 5), 17);
    assert_eq!(number(b"URL:", 12 * 4 + 64, 4, 6), 0);
    let value = |bytes: usize| {
        let doubled: String =
            ('b'..='u').zip('a'..).map(|(to, from)| format!("{to}=${{{from}}}${{{from}}}\n")).collect();
        format!("a={}\n{doubled}v=${{u}}{}\n", "x".repeat(64), "y".repeat(bytes))
    };
    assert_eq!([agreed_number(&value(0)), agreed_number(&value(1))], [0, 16]);
}
