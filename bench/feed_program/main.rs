// A plain program that does what a feed does, with typed maps and the same checks: it reads the same
// script, and writes the reply.
#[path = "../plain/log.rs"]
mod log;

use log::{Server, record};
use std::io::{self, BufRead, Write};

fn main() -> io::Result<()> {
    let (mut server, mut feeding, mut fed) = (Server::default(), false, 0u64);
    for line in io::stdin().lock().lines() {
        let line = line?;
        match line.strip_prefix('|') {
            Some(text) if feeding => {
                if !record(text).is_some_and(|record| server.take(record)) {
                    return writeln!(io::stdout(), "refused");
                }
                fed += 1;
            }
            Some(_) => {}
            None => feeding = line.starts_with("feed"),
        }
    }
    writeln!(io::stdout(), "ok fed {fed} last {:016x}0000", server.log.len())
}
