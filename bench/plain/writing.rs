//! The entries that stay, and the text of their table.

use crate::planning::{Plans, WIDTHS};
use crate::reading::List;
use crate::store::{Id, Store};
use std::fmt::Write;
use std::hash::BuildHasher;

/// The value and the mask of one field.
#[derive(Clone, Copy, Default)]
pub struct Part {
    value: u32,
    mask: u32,
}

pub struct Entry {
    parts: [Part; 5],
    decision: u32,
}

/// The flagged ones of the entries that the diagram composes. Nodes of which none is flagged are passed over.
pub fn entries<S: BuildHasher + Default>(store: &Store<S>, plans: &Plans, root: Id, flags: &[bool]) -> Vec<Entry> {
    let mut entries = Vec::new();
    add(store, plans, 0, root, [Part::default(); 5], flags, &mut entries);
    entries
}

fn add<S: BuildHasher + Default>(
    store: &Store<S>,
    plans: &Plans,
    level: usize,
    id: Id,
    parts: [Part; 5],
    flags: &[bool],
    entries: &mut Vec<Entry>,
) {
    if !flags.contains(&true) {
        return;
    }
    if let Some(decision) = store.decision(id) {
        entries.push(Entry { parts, decision });
        return;
    }
    let mut rest = flags;
    for row in &plans.lists[id as usize] {
        let (own, others) = rest.split_at(plans.costs[row.to as usize] as usize);
        let width = u32::from(WIDTHS[level]);
        let greatest = u32::MAX >> (32 - width);
        let mask = greatest & !((greatest as u64) >> row.len) as u32;
        let mut longer = parts;
        longer[level] = Part { value: row.value, mask };
        add(store, plans, level + 1, row.to, longer, own, entries);
        rest = others;
    }
}

/// The table's text in version 2.
pub fn table<S>(list: &List<S>, composed: u128, entries: &[Entry]) -> String {
    let mut names = vec!["miss"; list.names.len() + 1];
    for (name, &number) in &list.names {
        names[number as usize] = name;
    }
    let mut text = format!("table 2 slot 144 composed {composed} entries {}\n", entries.len());
    for Entry { parts, decision } in entries {
        for (part, width) in parts.iter().zip(WIDTHS) {
            let digits = usize::from(width) / 4;
            write!(text, "{:0digits$X}/{:0digits$X} ", part.value, part.mask).expect("a text takes all");
        }
        text.push_str(names[*decision as usize]);
        text.push('\n');
    }
    text
}
