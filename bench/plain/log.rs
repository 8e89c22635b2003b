// What the plain programs share: a server that takes log records, with typed maps and the checks of a
// feed. It keeps the log, the changes in flight and the rows.
use std::collections::BTreeMap;

#[derive(Clone, PartialEq)]
pub enum Value {
    Null,
    Int(i64),
    Text(String),
}

pub type Row = Vec<Value>;

pub enum Change {
    Insert(Row),
    Update(Row, Row),
    Delete(Row),
    /// the start of a registration, which no feed has
    #[allow(dead_code)]
    Start,
}

// (nothing reads the user's name again: the log keeps it)
#[allow(dead_code)]
pub enum Record {
    Change(u32, String, Change),
    Commit(u32, String, u64),
    Abort(u32),
}

/// The words of a line; a text in quotes is one word.
fn words(line: &str) -> Vec<&str> {
    let bytes = line.as_bytes();
    let (mut found, mut at) = (Vec::new(), 0);
    while at < bytes.len() {
        if bytes[at] == b' ' {
            at += 1;
            continue;
        }
        let from = at;
        if bytes[at] == b'\'' {
            at += 1;
            while at < bytes.len() {
                if bytes[at] == b'\'' {
                    if bytes.get(at + 1) != Some(&b'\'') {
                        break;
                    }
                    at += 1;
                }
                at += 1;
            }
            at += 1;
        } else {
            while at < bytes.len() && bytes[at] != b' ' {
                at += 1;
            }
        }
        found.push(&line[from..at.min(bytes.len())]);
    }
    found
}

fn value(word: &str) -> Option<Value> {
    if word == "null" {
        return Some(Value::Null);
    }
    match word.strip_prefix('\'').and_then(|text| text.strip_suffix('\'')) {
        Some(text) => Some(Value::Text(text.replace("''", "'").replace("\\n", "\n").replace("\\\\", "\\"))),
        None => word.parse().ok().map(Value::Int),
    }
}

fn row(words: &[&str]) -> Option<Row> {
    words.iter().map(|word| value(word)).collect()
}

pub fn record(line: &str) -> Option<Record> {
    let words = words(line);
    let tx = words.get(1)?.parse().ok()?;
    let table = || Some(words.get(2)?.to_string());
    Some(match words[0] {
        "insert" => Record::Change(tx, table()?, Change::Insert(row(&words[3..])?)),
        "delete" => Record::Change(tx, table()?, Change::Delete(row(&words[3..])?)),
        "update" => {
            let arrow = words.iter().position(|word| *word == "->")?;
            let change = Change::Update(row(&words[3..arrow])?, row(&words[arrow + 1..])?);
            Record::Change(tx, table()?, change)
        }
        "commit" => Record::Commit(tx, table()?, words.get(3)?.parse().ok()?),
        "abort" => Record::Abort(tx),
        _ => return None,
    })
}

/// Whether a row is one of `id int, item text, qty int null`.
fn fits_orders(row: &Row) -> bool {
    matches!(&row[..], [Value::Int(_), Value::Text(text), Value::Int(_) | Value::Null] if text.len() <= 1000)
}

/// A server with one table.
pub struct Server {
    pub log: Vec<Record>,
    in_flight: BTreeMap<u32, Vec<usize>>,
    pub rows: BTreeMap<i64, Row>,
    time: u64,
    table: &'static str,
    fits: fn(&Row) -> bool,
}

impl Default for Server {
    fn default() -> Server {
        Server::of("orders", fits_orders)
    }
}

fn key(row: &Row) -> i64 {
    match row[0] {
        Value::Int(key) => key,
        _ => 0,
    }
}

impl Server {
    /// A server with a table of this name, whose rows are those that fit.
    pub fn of(table: &'static str, fits: fn(&Row) -> bool) -> Server {
        Server { log: Vec::new(), in_flight: BTreeMap::new(), rows: BTreeMap::new(), time: 0, table, fits }
    }

    fn make(&mut self, at: usize) -> bool {
        let Record::Change(_, _, change) = &self.log[at] else { return false };
        match change {
            Change::Insert(row) => self.rows.insert(key(row), row.clone()).is_none(),
            Change::Delete(row) => self.rows.remove(&key(row)).as_ref() == Some(row),
            Change::Update(before, after) => self.rows.insert(key(after), after.clone()).as_ref() == Some(before),
            Change::Start => true,
        }
    }

    pub fn take(&mut self, record: Record) -> bool {
        let fits = self.fits;
        match &record {
            Record::Change(tx, table, change) => {
                let applies = table == self.table
                    && match change {
                        Change::Insert(row) | Change::Delete(row) => fits(row),
                        Change::Update(before, after) => fits(before) && fits(after) && before[0] == after[0],
                        Change::Start => false,
                    };
                if !applies {
                    return false;
                }
                self.in_flight.entry(*tx).or_default().push(self.log.len());
            }
            Record::Commit(tx, _, time) => {
                if *time < self.time {
                    return false;
                }
                self.time = *time;
                for at in self.in_flight.remove(tx).unwrap_or_default() {
                    if !self.make(at) {
                        return false;
                    }
                }
            }
            Record::Abort(tx) => {
                self.in_flight.remove(tx);
            }
        }
        self.log.push(record);
        true
    }
}
