//! A plain search of all runs of relay networks, in breadth, with a hash set of states: the yardstick beside which
//! `never` is timed.
//!
//! Usage: `search COILS INPUTS FREE COIL < networks`, one network a line in the text of a plant file. In each scan
//! the field brings any combination of the first FREE inputs. It writes what plant984 writes: `holds K` where COIL
//! is on after no scan of any run, or else `fails S`, without the run.
use std::collections::{HashSet, VecDeque};
use std::io::{self, Read};

mod solver;
use solver::{network_of, solve, Discretes, Network};

/// A state: the coils and inputs as bits.
type Key = Box<[u64]>;

fn key_of(discretes: &[bool]) -> Key {
    let word = |bits: &[bool]| bits.iter().rev().fold(0, |word, bit| word << 1 | u64::from(*bit));
    discretes.chunks(64).map(word).collect()
}

fn fill(discretes: &mut [bool], key: &Key) {
    for (place, bit) in discretes.iter_mut().enumerate() {
        *bit = key[place / 64] >> (place % 64) & 1 != 0;
    }
}

/// The state after a scan in which the field brings the inputs of a move.
fn after(networks: &[Network], discretes: &mut Discretes, from: &Key, free: usize, by: usize) -> Key {
    fill(&mut discretes.now, from);
    fill(&mut discretes.past, from);
    let inputs = discretes.coils;
    discretes.now[inputs..].fill(false);
    for input in 0..free {
        discretes.now[inputs + input] = by >> input & 1 != 0;
    }
    for network in networks {
        solve(network, discretes);
    }
    key_of(&discretes.now)
}

fn main() -> io::Result<()> {
    let words: Vec<String> = std::env::args().skip(1).collect();
    let [coils, inputs, free] = [0, 1, 2].map(|place| words[place].parse::<usize>().expect("a number"));
    let off = vec![false; coils + inputs];
    let mut discretes = Discretes { coils, now: off.clone(), past: off.clone() };
    let asked = discretes.place(&words[3]);
    let mut text = String::new();
    io::stdin().read_to_string(&mut text)?;
    let networks: Vec<Network> = text.lines().map(|line| network_of(line, &discretes)).collect();
    let start = key_of(&off);
    let mut found = HashSet::from([start.clone()]);
    let mut waiting = VecDeque::from([(start, 0)]);
    while let Some((state, scans)) = waiting.pop_front() {
        if state[asked / 64] >> (asked % 64) & 1 != 0 {
            println!("fails {scans}");
            return Ok(());
        }
        for by in 0..1 << free {
            let next = after(&networks, &mut discretes, &state, free, by);
            if found.insert(next.clone()) {
                waiting.push_back((next, scans + 1));
            }
        }
    }
    println!("holds {}", found.len());
    Ok(())
}
