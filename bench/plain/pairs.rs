//! A plain search of all runs of two lists of relay networks side by side, in breadth, with a hash set of pairs of
//! states: the yardstick beside which `same` is timed.
//!
//! Usage: `pairs COILS INPUTS FREE COIL.. < networks`, one network a line in the text of a plant file, a line `%NEW`
//! between the two lists. In each scan the field brings both any combination of the first FREE inputs. It writes what
//! plant984 writes: `holds K` where these coils are the same after each scan of any run, or else `fails S`.
use std::collections::{HashSet, VecDeque};
use std::io::{self, Read};

mod solver;
use solver::{network_of, solve, Discretes, Network};

/// A state of both: the coils and inputs of the old one, and then those of the new one, as bits.
type Key = Box<[u64]>;

fn words_of(discretes: &[bool]) -> impl Iterator<Item = u64> + '_ {
    let word = |bits: &[bool]| bits.iter().rev().fold(0, |word, bit| word << 1 | u64::from(*bit));
    discretes.chunks(64).map(word)
}

fn fill(discretes: &mut [bool], words: &[u64]) {
    for (place, bit) in discretes.iter_mut().enumerate() {
        *bit = words[place / 64] >> (place % 64) & 1 != 0;
    }
}

fn is_on(words: &[u64], place: usize) -> bool {
    words[place / 64] >> (place % 64) & 1 != 0
}

/// A scan of one side, from its words, in which the field brings the inputs of a move.
fn scan(networks: &[Network], discretes: &mut Discretes, from: &[u64], free: usize, by: usize) {
    fill(&mut discretes.now, from);
    fill(&mut discretes.past, from);
    let inputs = discretes.coils;
    discretes.now[inputs..].fill(false);
    for input in 0..free {
        discretes.now[inputs + input] = by >> input & 1 != 0;
    }
    for network in networks {
        solve(network, discretes);
    }
}

fn main() -> io::Result<()> {
    let words: Vec<String> = std::env::args().skip(1).collect();
    let [coils, inputs, free] = [0, 1, 2].map(|place| words[place].parse::<usize>().expect("a number"));
    let off = vec![false; coils + inputs];
    let mut discretes = Discretes { coils, now: off.clone(), past: off.clone() };
    let shown: Vec<usize> = words[3..].iter().map(|coil| discretes.place(coil)).collect();
    let mut text = String::new();
    io::stdin().read_to_string(&mut text)?;
    let (old, new) = text.split_once("%NEW\n").expect("two lists of networks");
    let sides = [old, new].map(|text| text.lines().map(|line| network_of(line, &discretes)).collect::<Vec<_>>());
    let half = off.len().div_ceil(64);
    let start: Key = words_of(&off).chain(words_of(&off)).collect();
    let mut found = HashSet::from([start.clone()]);
    let mut waiting = VecDeque::from([(start, 0)]);
    while let Some((pair, scans)) = waiting.pop_front() {
        let (left, right) = pair.split_at(half);
        if shown.iter().any(|place| is_on(left, *place) != is_on(right, *place)) {
            println!("fails {scans}");
            return Ok(());
        }
        for by in 0..1 << free {
            let mut next = Vec::with_capacity(2 * half);
            for (networks, from) in sides.iter().zip([left, right]) {
                scan(networks, &mut discretes, from, free, by);
                next.extend(words_of(&discretes.now));
            }
            let next = next.into_boxed_slice();
            if found.insert(next.clone()) {
                waiting.push_back((next, scans + 1));
            }
        }
    }
    println!("holds {}", found.len());
    Ok(())
}
