// The bench's operations, proved, beside plain Rust of the same rules: the results are compared, then all are timed.
mod compare;
mod damage;
mod doors;
mod plain;
mod plain_analysis;
mod plain_choice;
mod plain_play;
mod records;
mod sides;

use compare::compare_all;
use plain::Block;
use plain_choice::bare;
use records::{overtaken, Seed, Trial};
use sides::{Operation, Side, ANALYSE, CHECK, PLAY, PLAY_LENGTH, RECODE, WINDOWS};
use std::hint::black_box;
use std::time::Instant;

// Nanoseconds a call, over all trials 20 times.
fn time(trials: usize, mut f: impl FnMut(usize) -> u64) -> f64 {
    let mut x = 0u64;
    let t = Instant::now();
    for _ in 0..20 {
        for i in 0..trials {
            x += f(i);
        }
    }
    black_box(x);
    t.elapsed().as_nanos() as f64 / (20 * trials) as f64
}

// The least of 25 samples of each side of an operation, in turn, on inputs that are right: ours, plain Rust, and plain Rust
// by cycle where there is that.
fn least<T: Copy + Default>(trials: &[Trial], op: &Operation<T>) -> Vec<f64> {
    let sides: Vec<Side<T>> = [op.ours, op.rust].into_iter().chain(op.by_cycle).collect();
    let mut out = vec![T::default(); op.output.length(60)];
    for side in &sides {
        assert!(trials.iter().all(|t| side(t, &mut out) == 0), "{}: a timed record is refused", op.name);
    }
    let mut least = vec![f64::MAX; sides.len()];
    for _ in 0..25 {
        for (l, side) in least.iter_mut().zip(&sides) {
            *l = l.min(time(trials.len(), |i| side(black_box(&trials[i]), black_box(&mut out[..])) as u64));
        }
    }
    least
}

fn ratios(times: &[f64]) -> String {
    match *times {
        [a, b] => format!("ours {a:.0} ns, plain Rust {b:.0} ns, ratio {:.2}", a / b),
        [a, b, c] => {
            let sides = format!("ours {a:.0} ns, plain Rust by choice {b:.0} ns, by cycle {c:.0} ns");
            format!("{sides}, ratio to by choice {:.2}, to by cycle {:.2}", a / b, a / c)
        }
        _ => unreachable!(),
    }
}

// Prints the times of an operation, also less those of the check of the same records. Ours less the check.
fn print_less<T: Copy + Default>(what: &str, trials: &[Trial], op: &Operation<T>) -> f64 {
    let times = least(trials, op);
    let check = least(trials, &CHECK);
    let less: Vec<f64> = times.iter().enumerate().map(|(k, t)| t - check[k.min(1)]).collect();
    println!("{}, {what}: {}; less the check {}", op.name, ratios(&times), ratios(&less));
    less[0]
}

fn contended(seed: &mut Seed, n: usize, top: u64) -> Vec<Trial> {
    let mut trial = || {
        let r = seed.contended(n, top);
        seed.right(&r)
    };
    (0..500).map(|_| trial()).collect()
}

// Times plays, and beside them the bare starts in plain Rust by choice.
fn plays(what: &str, trials: &[Trial]) {
    let blocks: Vec<Block> = trials.iter().map(|t| plain::read(&t.record).unwrap()).collect();
    let bare = |i: usize| bare(black_box(&blocks[i]), black_box(&trials[i].list)) as u64;
    let cycles: u64 = (0..trials.len()).map(bare).sum();
    let ours = print_less(&format!("{what}, {} cycles", cycles / trials.len() as u64), trials, &PLAY);
    let z = (0..25).map(|_| time(trials.len(), bare)).fold(f64::MAX, f64::min);
    println!("  bare starts in plain Rust by choice {z:.0} ns; ours less the check to them {:.2}", ours / z);
}

fn main() {
    let mut seed = Seed(88172645463325252);
    if !compare_all(&mut seed) {
        std::process::exit(1);
    }
    let records: Vec<[u8; 512]> = (0..500).map(|_| seed.record()).collect();
    let trials: Vec<Trial> = records.iter().map(|r| seed.right(r)).collect();
    for op in [CHECK, RECODE] {
        println!("{}: {}", op.name, ratios(&least(&trials, &op)));
    }
    for (n, top) in [(8, 6), (8, 255), (20, 6), (20, 255), (60, 6), (60, 255)] {
        print_less(&format!("n {n}, latencies to {top}"), &contended(&mut seed, n, top), &ANALYSE);
    }
    for top in [6, 255] {
        print_less(&format!("n 60, latencies to {top}"), &contended(&mut seed, 60, top), &WINDOWS);
    }
    for n in [8, 20, 60] {
        for top in [6, 60, 255] {
            plays(&format!("n {n}, latencies to {top}"), &contended(&mut seed, n, top));
        }
    }
    let overtaken: Vec<Trial> = (0..500).map(|_| seed.right(&overtaken())).collect();
    plays("n 60, overtaken", &overtaken);
    print_less("n 60, latencies to 60", &contended(&mut seed, 60, 60), &PLAY_LENGTH);
}
