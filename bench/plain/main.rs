//! A plain solver of relay networks, by columns: the yardstick beside which plant984 is timed.
//!
//! Usage: `plain SCANS COILS INPUTS PANEL < networks`, one network a line in the text of a plant file.
//! It writes what plant984 writes for them: the panel line of each scan, with so many coils from
//! 00001 on.
use std::fmt::Write as _;
use std::io::{self, Read, Write};

mod solver;
use solver::{network_of, solve, Discretes, Network};

/// The panel line of a scan.
fn push_line(text: &mut String, scan: usize, shown: &[bool]) {
    write!(text, "S {scan} N 1").expect("a string");
    for (place, on) in shown.iter().enumerate() {
        write!(text, " {:05}={}", place + 1, u8::from(*on)).expect("a string");
    }
    text.push('\n');
}

fn main() -> io::Result<()> {
    let mut numbers = std::env::args().skip(1).map(|word| word.parse().expect("a number"));
    let mut next = || numbers.next().expect("SCANS COILS INPUTS PANEL");
    let (scans, coils, inputs, panel): (usize, usize, usize, usize) = (next(), next(), next(), next());
    let off = vec![false; coils + inputs];
    let mut discretes = Discretes { coils, now: off.clone(), past: off };
    let mut text = String::new();
    io::stdin().read_to_string(&mut text)?;
    let networks: Vec<Network> = text.lines().map(|line| network_of(line, &discretes)).collect();
    let mut lines = String::new();
    for scan in 1..=scans {
        for network in &networks {
            solve(network, &mut discretes);
        }
        discretes.past.copy_from_slice(&discretes.now);
        push_line(&mut lines, scan, &discretes.now[..panel]);
    }
    io::stdout().write_all(lines.as_bytes())
}
