//! Nanoseconds per call of the proved functions on numbers, beside plain Rust by the same rules ("bound") and the standard library's functions ("native"), whose
//! results may differ. The three alternate in one process; each figure is the lower quartile over rounds. The answers are compared with the bound ones first.
mod plain;
use std::hint::black_box;
use std::time::Instant;

extern "C" {
    fn rattle_log10(b: f64) -> f64;
    fn rattle_two(p: f64) -> f64;
    fn rattle_power(b: f64, e: f64) -> f64;
    fn rattle_exp(x: f64) -> f64;
    fn rattle_root64(x: f64) -> f64;
    fn rattle_root32(x: f32) -> f32;
    fn rattle_angle(dot: f64, det: f64) -> f64;
    fn rattle_f64_to_f32(x: f64) -> f32;
    fn rattle_trunc(x: f64) -> f64;
    fn rattle_floor(x: f64) -> f64;
    fn rattle_ceil(x: f64) -> f64;
    fn rattle_to_i32(x: f64) -> i32;
}

struct Random(u64);

impl Random {
    fn word(&mut self) -> u64 {
        self.0 ^= self.0 << 13;
        self.0 ^= self.0 >> 7;
        self.0 ^= self.0 << 17;
        self.0
    }

    fn between(&mut self, low: f64, high: f64) -> f64 {
        low + (high - low) * ((self.word() >> 11) as f64 / (1u64 << 53) as f64)
    }
}

const CALLS: usize = 1000;
const ROUNDS: usize = 61;

fn quartile(mut times: Vec<f64>) -> f64 {
    times.sort_by(f64::total_cmp);
    times[times.len() / 4]
}

/// Nanoseconds a call. The answers are folded into one number: one that is stored where the next argument is read from would make each call wait for the one before.
#[inline(never)]
fn time<A: Copy>(args: &[A], function: &impl Fn(A) -> u64) -> f64 {
    let start = Instant::now();
    let answers = args.iter().fold(0, |all, &a| all ^ function(black_box(a)));
    let taken = start.elapsed();
    black_box(answers);
    taken.as_nanos() as f64 / args.len() as f64
}

/// Compares the answers over the arguments, then times the three. Each round has other arguments than the last, so that none meets branches that the processor has learnt.
fn measure<A: Copy>(name: &str, args: &[A], ours: impl Fn(A) -> u64, bound: impl Fn(A) -> u64, native: impl Fn(A) -> u64) {
    let differ = args.iter().filter(|&&a| ours(a) != bound(a)).count();
    let mut times = [vec![], vec![], vec![]];
    for round in args.chunks(CALLS) {
        times[0].push(time(round, &ours));
        times[1].push(time(round, &bound));
        times[2].push(time(round, &native));
    }
    let [us, bound, native] = times.map(quartile);
    println!("{name:<12} {us:>9.1} {bound:>9.1} {:>7.2} {native:>9.1} {:>7.2} {differ:>9}", us / bound, us / native);
}

fn main() {
    let table = plain::Table::new();
    let mut r = Random(0x9E3779B97F4A7C15);
    let n = ROUNDS * CALLS;
    let positive: Vec<f64> = (0..n).map(|_| r.between(0.01, 500.0)).collect();
    let powers: Vec<(f64, f64)> = positive.iter().map(|&b| (b, r.between(0.1, 4.0))).collect();
    let exponents: Vec<f64> = (0..n).map(|_| r.between(-20.0, 20.0)).collect();
    let singles: Vec<f32> = positive.iter().map(|&x| x as f32).collect();
    let directions: Vec<(f64, f64)> = (0..n).map(|_| (r.between(-1e5, 1e5), r.between(-1e5, 1e5))).collect();
    println!("{:<12} {:>9} {:>9} {:>7} {:>9} {:>7} {:>9}   (ns per call)", "", "proved", "bound", "ratio", "native", "ratio", "different");
    let two_40 = (1u64 << 40) as f64;
    unsafe {
        measure("log10", &positive, |b| rattle_log10(b).to_bits(), |b| plain::log10(b).to_bits(), |b| b.log10().to_bits());
        measure("two", &exponents, |x| rattle_two(x * 1e12).to_bits(), |x| table.two(x * 1e12).to_bits(), |x| (x * 1e12 / two_40).exp2().to_bits());
        measure("power", &powers, |(b, e)| rattle_power(b, e).to_bits(), |(b, e)| table.power(b, e).to_bits(), |(b, e)| b.powf(e).to_bits());
        measure("power of 0.15", &exponents, |e| rattle_power(0.15, e).to_bits(), |e| table.power(0.15, e).to_bits(), |e| 0.15f64.powf(e).to_bits());
        measure("exp", &exponents, |x| rattle_exp(x).to_bits(), |x| table.exp(x).to_bits(), |x| x.exp().to_bits());
        measure("root64", &positive, |x| rattle_root64(x).to_bits(), |x| plain::root64(x).to_bits(), |x| x.sqrt().to_bits());
        measure("root32", &singles, |x| rattle_root32(x).to_bits() as u64, |x| plain::root32(x).to_bits() as u64, |x| x.sqrt().to_bits() as u64);
        measure("angle", &directions, |(x, y)| rattle_angle(x, y).to_bits(), |(x, y)| plain::angle(x, y).to_bits(), |(x, y)| y.abs().atan2(x).to_bits());
        measure("f64 to f32", &positive, |x| rattle_f64_to_f32(x).to_bits() as u64, |x| (x as f32).to_bits() as u64, |x| (x as f32).to_bits() as u64);
        measure("trunc", &positive, |x| rattle_trunc(x).to_bits(), |x| x.trunc().to_bits(), |x| x.trunc().to_bits());
        measure("floor", &positive, |x| rattle_floor(x).to_bits(), |x| x.floor().to_bits(), |x| x.floor().to_bits());
        measure("ceil", &positive, |x| rattle_ceil(x).to_bits(), |x| x.ceil().to_bits(), |x| x.ceil().to_bits());
        measure("to i32", &positive, |x| rattle_to_i32(x) as u64, |x| x as i32 as u64, |x| x as i32 as u64);
    }
}
