// A plain program that does what the script of bench/servers does at two servers: a feed, captures, the
// steps of a set with the predicate `qty >= 10`, and a target that is shown. It keeps typed maps, and
// writes the same replies.
#[path = "../plain/log.rs"]
mod log;

use log::{Change, Record, Row, Server, Value, record};
use std::collections::BTreeMap;
use std::io::{self, BufRead, BufWriter, Write};

#[derive(Clone, Copy, PartialEq)]
enum Op {
    I,
    U,
    D,
}

struct ChangeRow {
    seq: usize,
    op: Op,
    after: Row,
    before: Value,
}

#[derive(Default)]
struct Servers {
    source: Server,
    captured: usize,
    read: usize,
    in_flight: BTreeMap<u32, Vec<usize>>,
    started: Option<usize>,
    units: Vec<usize>,
    changes: Vec<ChangeRow>,
    synchpoint: Option<usize>,
    mark: usize,
    target: BTreeMap<i64, (i64, Option<i64>)>,
}

fn number(value: &Value) -> Option<i64> {
    match value {
        Value::Int(n) => Some(*n),
        _ => None,
    }
}

fn seq(n: usize) -> String {
    format!("{n:016x}0000")
}

impl Servers {
    fn put(&mut self, row: &Row) {
        if let (Some(id), Some(qty)) = (number(&row[0]), number(&row[2])) {
            if qty >= 10 {
                self.target.insert(id, (id, Some(qty)));
            }
        }
    }

    fn capture(&mut self, out: &mut impl Write) -> io::Result<()> {
        let (mut units, mut rows) = (0, 0);
        for at in self.read..self.source.log.len() {
            match &self.source.log[at] {
                Record::Change(tx, _, _) => self.in_flight.entry(*tx).or_default().push(at),
                Record::Abort(tx) => drop(self.in_flight.remove(tx)),
                Record::Commit(tx, _, _) => {
                    let seq = at + 1;
                    for place in self.in_flight.remove(tx).unwrap_or_default() {
                        let Record::Change(_, _, change) = &self.source.log[place] else { continue };
                        let (op, after, before) = match change {
                            Change::Insert(row) => (Op::I, row.clone(), Value::Null),
                            Change::Update(before, after) => (Op::U, after.clone(), before[2].clone()),
                            Change::Delete(row) => (Op::D, row.clone(), row[2].clone()),
                            Change::Start => {
                                self.started.get_or_insert(seq);
                                continue;
                            }
                        };
                        if self.started.is_some_and(|start| start < seq) {
                            self.changes.push(ChangeRow { seq, op, after, before });
                            rows += 1;
                        }
                    }
                    self.units.push(seq);
                    units += 1;
                    self.captured = seq;
                }
            }
        }
        self.read = self.source.log.len();
        writeln!(out, "ok captured {} units {units} rows {rows}", seq(self.captured))
    }

    fn apply(&mut self, out: &mut impl Write) -> io::Result<()> {
        let mut steps = 0;
        if self.synchpoint.is_none() {
            self.source.log.push(Record::Change(0, "orders".into(), Change::Start));
            self.source.log.push(Record::Commit(0, "q".into(), 0));
            let point = self.source.log.len();
            writeln!(out, "ok signal hq {}", seq(point))?;
            for row in self.source.rows.values().cloned().collect::<Vec<_>>() {
                self.put(&row);
            }
            self.synchpoint = Some(point);
            writeln!(out, "ok refresh {} rows {}", seq(point), self.target.len())?;
            steps += 2;
        }
        let from = self.synchpoint.unwrap_or(0);
        if from < self.captured {
            let first = self.changes.partition_point(|row| row.seq <= from);
            let mut counts = [0; 3];
            for at in first..self.changes.len() {
                let row = &self.changes[at];
                counts[row.op as usize] += 1;
                if let Some(id) = number(&row.after[0]) {
                    if row.op != Op::I {
                        // (the row from before goes, whether it was selected or not)
                        let _ = &row.before;
                        self.target.remove(&id);
                    }
                }
                if row.op != Op::D {
                    let after = row.after.clone();
                    self.put(&after);
                }
            }
            self.synchpoint = Some(self.captured);
            let [inserts, updates, deletes] = counts;
            writeln!(out, "ok block {} {} insert {inserts} update {updates} delete {deletes}", seq(from), seq(self.captured))?;
            steps += 1;
        }
        let point = self.synchpoint.unwrap_or(0);
        if self.mark < point {
            self.mark = point;
            writeln!(out, "ok report {}", seq(point))?;
            steps += 1;
        }
        writeln!(out, "ok apply steps {steps}")
    }

    fn show(&self, out: &mut impl Write) -> io::Result<()> {
        for (id, qty) in self.target.values() {
            match qty {
                Some(qty) => writeln!(out, "row {id} {qty}")?,
                None => writeln!(out, "row {id} null")?,
            }
        }
        writeln!(out, "ok rows {}", self.target.len())
    }
}

fn main() -> io::Result<()> {
    let (mut servers, mut feeding, mut fed) = (Servers::default(), false, 0u64);
    let mut out = BufWriter::new(io::stdout());
    let mut lines = io::stdin().lock().lines();
    loop {
        let line = lines.next().transpose()?;
        match line.as_deref() {
            Some(line) if line.starts_with('|') => {
                if feeding {
                    if !record(&line[1..]).is_some_and(|record| servers.source.take(record)) {
                        return writeln!(out, "refused");
                    }
                    fed += 1;
                }
            }
            line => {
                if feeding {
                    writeln!(out, "ok fed {fed} last {}", seq(servers.source.log.len()))?;
                    (feeding, fed) = (false, 0);
                }
                match line {
                    None => return out.flush(),
                    Some("load") => writeln!(out, "ok loaded tables 1 registrations 1 sets 1")?,
                    Some("feed hq") => feeding = true,
                    Some("capture hq") => servers.capture(&mut out)?,
                    Some("apply q s") => servers.apply(&mut out)?,
                    Some("show shop target orders_copy") => servers.show(&mut out)?,
                    Some(_) => writeln!(out, "refused")?,
                }
            }
        }
    }
}
