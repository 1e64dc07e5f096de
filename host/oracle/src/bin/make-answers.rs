//! Writes the fixed list into `answers/`.

use oracle::list;
use std::path::Path;

fn main() -> std::io::Result<()> {
    let directory = Path::new(env!("CARGO_MANIFEST_DIR")).join("answers");
    let entries = list::build();
    std::fs::write(directory.join("answers.bin"), list::to_binary(&entries))?;
    std::fs::write(directory.join("answers.txt"), list::to_text(&entries))?;
    println!("{} texts", entries.len());
    Ok(())
}
