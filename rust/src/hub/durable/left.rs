//! What the journal of the last life left.
use super::Again;
use crate::error::{Error, Result};
use crate::ffi::{self, status, Call, Fault, Shape};
use std::collections::HashMap;
use std::fmt::Write;

/// The names of items and queues, by their numbers.
pub(super) struct Names<'a> {
    pub(super) items: &'a [String],
    pub(super) queues: &'a [String],
}

/// How much of a journal is whole lines. The rest had not been synced when the program or the power failed: what stands
/// after the last line feed, and zeros up to the end of a sector or of the file, with what stands after them.
pub(super) fn whole(text: &[u8]) -> &[u8] {
    let from = text.iter().position(|byte| *byte == 0).unwrap_or(text.len());
    let to = from + text[from..].iter().take_while(|byte| **byte == 0).count();
    let len = if to == text.len() || to % 512 == 0 { from } else { text.len() };
    let lines = text[..len].iter().rposition(|byte| *byte == b'\n').map_or(0, |at| at + 1);
    &text[..lines]
}

/// The line that is longer than any may be.
fn long_line(text: &[u8]) -> u64 {
    let lines = text.split(|byte| *byte == b'\n');
    1 + lines.take_while(|line| line.len() <= 120).count() as u64
}

/// Whether the last of these whole lines says that the history has ended: then it leaves nothing.
fn is_ended(text: &[u8]) -> bool {
    let last = text.strip_suffix(b"\n").and_then(|text| text.rsplit(|byte| *byte == b'\n').next());
    last.is_some_and(|last| last.starts_with(b"end "))
}

fn refused(text: &[u8], (fault, line): (Fault, u64)) -> Error {
    match fault {
        status::REFUSED | status::ILLEGAL => Error::BadJournal { line: if line == 0 { long_line(text) } else { line } },
        fault => Error::of(fault),
    }
}

/// The calls that resume this journal, if it has nothing that the builder has not. `again` is asked of each item with a
/// run that was broken off.
pub(super) fn calls(
    text: &[u8],
    shape: &Shape,
    names: &Names<'_>,
    named: &str,
    again: Option<&mut Again>,
) -> Result<Vec<Call>> {
    let lines = whole(text);
    if lines.is_empty() {
        // zeros alone were never written; anything else is no journal
        return if text.iter().all(|byte| *byte == 0) { Ok(Vec::new()) } else { Err(Error::BadJournal { line: 1 }) };
    }
    let left = ffi::resume(lines, &[]).map_err(|fault| refused(lines, fault))?;
    if is_ended(lines) {
        return Ok(Vec::new());
    }
    compare(&left, shape, names, named)?;
    let mut calls = left.calls;
    if let Some(again) = again {
        let without = vec![1; names.items.len()];
        let without = ffi::resume(lines, &without).map_err(|fault| refused(lines, fault))?.calls;
        let mut without = without.iter().peekable();
        calls.retain(|call| {
            let is_pending = without.next_if(|other| (other.kind, other.item) == (call.kind, call.item)).is_some();
            is_pending || again(&names.items[usize::from(call.item)])
        });
    }
    Ok(calls)
}

/// Whether the builder has all that the journal has, and by the names that are kept beside it.
fn compare(left: &ffi::Left, shape: &Shape, names: &Names<'_>, named: &str) -> Result<()> {
    let known: HashMap<(&str, &str), &str> = named.lines().filter_map(name_of).collect();
    let other = |kind: &str, number: usize, own: Option<&str>| match known.get(&(kind, number.to_string().as_str())) {
        Some(name) if own != Some(name) => Err(Error::OtherShape(format!("{kind} {number} {name}"))),
        None if own.is_none() => Err(Error::OtherShape(format!("{kind} {number}"))),
        _ => Ok(()),
    };
    (0..usize::from(left.shape.items)).try_for_each(|it| other("item", it, names.items.get(it).map(String::as_str)))?;
    (0..left.queues).try_for_each(|it| other("queue", it, names.queues.get(it).map(String::as_str)))?;
    if left.shape.cpus > shape.cpus {
        return Err(Error::OtherShape(format!("CPU {}", shape.cpus)));
    }
    Ok(())
}

/// What a line of the file of names says: the kind and the number, and the name.
fn name_of(line: &str) -> Option<((&str, &str), &str)> {
    let (kind, rest) = line.split_once(' ')?;
    let (number, name) = rest.split_once(' ')?;
    Some(((kind, number), name))
}

/// The file of the names.
pub(super) fn names_text(names: &Names<'_>) -> String {
    let mut text = String::new();
    for (number, name) in names.items.iter().enumerate() {
        let _ = writeln!(text, "item {number} {name}");
    }
    for (number, name) in names.queues.iter().enumerate() {
        let _ = writeln!(text, "queue {number} {name}");
    }
    text
}
