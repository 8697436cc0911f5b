// The proved operations beside plain Rust on right and damaged inputs: the answers and all of the lent memory. Plain Rust's
// two ways to play, by choice and by cycle, are compared in the same trials.
use crate::damage::MEMORY;
use crate::records::Seed;
use crate::sides::{Operation, ANALYSE, CHECK, PLAY, PLAY_LENGTH, RECODE, WINDOWS};
use std::collections::BTreeMap;

// How often each answer was given, and the first trial in which something differs.
struct Tally {
    name: &'static str,
    numbers: &'static [u32],
    tried: usize,
    differ: usize,
    ways: usize, // how often plain Rust played both by choice and by cycle
    ways_differ: usize,
    answers: BTreeMap<u32, usize>,
    first: Option<String>,
}

fn text(answer: u32) -> String {
    match answer {
        0 => "accepted".to_string(),
        _ => format!("{} at {}", answer / 65536, answer % 65536),
    }
}

impl Tally {
    fn new(name: &'static str, numbers: &'static [u32]) -> Tally {
        Tally { name, numbers, tried: 0, differ: 0, ways: 0, ways_differ: 0, answers: BTreeMap::new(), first: None }
    }

    // How often a number was answered, and at how many places.
    fn of(&self, number: u32) -> (usize, usize) {
        let found = self.answers.range(number * 65536..(number + 1) * 65536);
        (found.clone().map(|x| x.1).sum(), found.count())
    }

    fn missing(&self) -> Vec<String> {
        let never = self.numbers.iter().filter(|k| self.of(**k).0 == 0);
        never.map(|k| k.to_string()).collect()
    }

    fn print(&self) {
        let counts: Vec<String> = self.numbers.iter().map(|k| format!("{k} x {}", self.of(*k).0)).collect();
        println!("{}: {} compared, {} differ; answers: {}", self.name, self.tried, self.differ, counts.join(", "));
        if self.ways > 0 {
            println!("  plain Rust by choice and by cycle: {} compared, {} differ", self.ways, self.ways_differ);
        }
        if let Some(first) = &self.first {
            println!("  the first that differs: {first}");
        }
        if !self.missing().is_empty() {
            println!("  not answered: {}", self.missing().join(", "));
        }
    }
}

// Each record as it is, then 40 times varied and mostly spoiled. Memory beyond the output stays as it was, and all of it at
// a refusal.
fn compare<T: Copy + PartialEq + From<u8>>(seed: &mut Seed, records: &[[u8; 512]], op: &Operation<T>) -> Tally {
    let mut tally = Tally::new(op.name, op.numbers);
    let blank: [T; MEMORY] = std::array::from_fn(|k| T::from(255 - (k % 251) as u8)); // no zero, so that one written is seen
    for (i, r) in records.iter().enumerate() {
        let n = r[4] as usize;
        for k in 0..41 {
            let trial = if k == 0 { seed.right(r) } else { seed.trial(r) };
            let lent = if k == 0 { op.output.length(n) } else { seed.output_length(&op.output, n) };
            let (mut a, mut b) = (blank, blank);
            let (x, y) = ((op.ours)(&trial, &mut a[..lent]), (op.rust)(&trial, &mut b[..lent]));
            let written = if y == 0 { op.output.length(n) } else { 0 };
            tally.tried += 1;
            *tally.answers.entry(x).or_default() += 1;
            if x != y || a != b || a[written..] != blank[written..] {
                tally.differ += 1;
                let at = (0..MEMORY).find(|&j| a[j] != b[j] || (written <= j && a[j] != blank[j]));
                let memory = at.map_or("memory right".to_string(), |j| format!("memory wrong from {j} on"));
                tally.first.get_or_insert(format!("record {i}, trial {k}: ours {}, plain Rust {}, {memory}", text(x), text(y)));
            }
            if let Some(by_cycle) = op.by_cycle {
                let mut c = blank;
                let z = by_cycle(&trial, &mut c[..lent]);
                tally.ways += 1;
                if z != y || c != b {
                    tally.ways_differ += 1;
                    tally.first.get_or_insert(format!("record {i}, trial {k}: by choice {}, by cycle {}", text(y), text(z)));
                }
            }
        }
    }
    tally
}

// Prints the refusals of all operations together. Whether each number occurred.
fn print_refusals(tallies: &[Tally]) -> bool {
    let mut all = Tally::new("all", &[1, 2, 3, 4, 5, 6, 7, 8]);
    for (answer, times) in tallies.iter().flat_map(|t| &t.answers) {
        *all.answers.entry(*answer).or_default() += times;
    }
    let line = |k: &u32| match all.of(*k) {
        (times, 0 | 1) => format!("{k} x {times}"),
        (times, places) => format!("{k} x {times} at {places} places"),
    };
    let lines: Vec<String> = all.numbers.iter().map(line).collect();
    let places: usize = all.numbers.iter().map(|k| all.of(*k).1).sum();
    println!("all refusals: {}; {places} different places", lines.join(", "));
    if !all.missing().is_empty() {
        println!("refusals that did not occur: {}", all.missing().join(", "));
    }
    all.missing().is_empty()
}

// Whether all are the same, and every answer that an operation can give was given.
pub fn compare_all(seed: &mut Seed) -> bool {
    let mut records: Vec<[u8; 512]> = (0..500).map(|_| seed.record()).collect();
    for _ in 0..1000 {
        let (n, top) = (1 + seed.below(60) as usize, seed.among(&[1, 6, 60, 255]));
        records.push(seed.contended(n, top));
    }
    let tallies = [
        compare(seed, &records, &CHECK),
        compare(seed, &records, &RECODE),
        compare(seed, &records, &ANALYSE),
        compare(seed, &records, &WINDOWS),
        compare(seed, &records, &PLAY),
        compare(seed, &records, &PLAY_LENGTH),
    ];
    tallies.iter().for_each(Tally::print);
    let refused = print_refusals(&tallies);
    tallies.iter().all(|t| t.differ == 0 && t.ways_differ == 0 && t.missing().is_empty()) && refused
}
