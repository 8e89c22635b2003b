// A plain program that does what `copy` does, with typed maps and the same checks: it feeds the lines, captures what they
// commit as change rows, applies these to a copy, and writes its rows.
#[path = "../plain/log.rs"]
mod log;

use log::{Change, Record, Row, Server, Value, record};
use std::collections::BTreeMap;
use std::io::{self, BufRead, BufWriter, Write};

enum ChangeRow {
    Put(Row),
    Remove(Row),
}

/// Whether a row is one of `id int, name text null`.
fn fits(row: &Row) -> bool {
    match &row[..] {
        [Value::Int(_), Value::Null] => true,
        [Value::Int(_), Value::Text(text)] => text.len() <= 1000,
        _ => false,
    }
}

/// The change rows of the committed units.
fn captured(log: &[Record]) -> Vec<ChangeRow> {
    let (mut in_flight, mut rows): (BTreeMap<u32, Vec<&Change>>, _) = (BTreeMap::new(), Vec::new());
    for record in log {
        match record {
            Record::Change(tx, _, change) => in_flight.entry(*tx).or_default().push(change),
            Record::Abort(tx) => drop(in_flight.remove(tx)),
            Record::Commit(tx, _, _) => {
                for change in in_flight.remove(tx).unwrap_or_default() {
                    match change {
                        Change::Insert(row) | Change::Update(_, row) => rows.push(ChangeRow::Put(row.clone())),
                        Change::Delete(row) => rows.push(ChangeRow::Remove(row.clone())),
                        Change::Start => {}
                    }
                }
            }
        }
    }
    rows
}

fn key(row: &Row) -> i64 {
    match row[0] {
        Value::Int(key) => key,
        _ => 0,
    }
}

fn main() -> io::Result<()> {
    let mut source = Server::of("items", fits);
    for line in io::stdin().lock().lines() {
        if !record(&line?).is_some_and(|record| source.take(record)) {
            return writeln!(io::stdout(), "refused");
        }
    }
    let mut copy = BTreeMap::new();
    for row in captured(&source.log) {
        match row {
            ChangeRow::Put(row) => drop(copy.insert(key(&row), row)),
            ChangeRow::Remove(row) => drop(copy.remove(&key(&row))),
        }
    }
    let mut out = BufWriter::new(io::stdout());
    for (id, row) in &copy {
        match &row[1] {
            Value::Text(text) => writeln!(out, "row {id} '{}'", text.replace('\'', "''"))?,
            _ => writeln!(out, "row {id} null")?,
        }
    }
    writeln!(out, "ok rows {}", copy.len())?;
    out.flush()
}
