//! Answers a trace by a plain loop over the words of a table: look TABLE TRACE
//!
//! The table is in the second version of its text. Each header is compared with one entry after another.
use std::io::Write;

struct Entry {
    value: u128,
    mask: u128,
    name: String,
}

const WIDTHS: [u32; 5] = [32, 32, 16, 16, 8];

fn joined(parts: impl Iterator<Item = u32>) -> u128 {
    parts.zip(WIDTHS).fold(0, |word, (part, width)| word << width | u128::from(part))
}

fn entry(line: &str) -> Entry {
    let columns: Vec<&str> = line.split(' ').collect();
    let half = |column: &&str, second: bool| {
        let (value, mask) = column.split_once('/').unwrap();
        u32::from_str_radix(if second { mask } else { value }, 16).unwrap()
    };
    Entry {
        value: joined(columns[..5].iter().map(|column| half(column, false))),
        mask: joined(columns[..5].iter().map(|column| half(column, true))),
        name: columns[5].to_string(),
    }
}

fn main() -> std::io::Result<()> {
    let paths: Vec<String> = std::env::args().skip(1).collect();
    let table = std::fs::read_to_string(&paths[0])?;
    let entries: Vec<Entry> = table.lines().skip(1).map(entry).collect();
    let trace = std::fs::read_to_string(&paths[1])?;
    let mut out = std::io::BufWriter::with_capacity(65_536, std::io::stdout().lock());
    for line in trace.lines() {
        let key = joined(line.split(' ').map(|column| column.parse().unwrap()));
        let found = entries.iter().find(|entry| key & entry.mask == entry.value);
        out.write_all(found.map_or("miss", |entry| &entry.name).as_bytes())?;
        out.write_all(b"\n")?;
    }
    out.flush()
}
