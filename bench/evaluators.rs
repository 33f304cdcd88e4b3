//! Nanoseconds per place of each evaluator, over all places of a chart, lower quartile of the runs; the chart's check is taken off.
mod charts;
mod clock;
#[path = "../clients/station.rs"]
mod station;
use clock::quartile;

extern "C" {
    fn rattle_check(chart: *const u8, length: usize, entries: usize) -> u64;
    fn rattle_evaluate(which: usize, chart: *const u8, length: usize, records: *const f64, records_length: usize) -> f64;
}

fn main() {
    let n = 4000;
    let chart = charts::chart(n);
    let (mut records, mut values) = (vec![0.0; station::RECORD * n], vec![0.0; station::VALUES * n]);
    station::open(&chart, &mut records, &mut values).unwrap();
    let check = quartile(|_| { std::hint::black_box(unsafe { rattle_check(chart.as_ptr(), chart.len(), n) }); });
    println!("{n} objects, nanoseconds of processor time per place, lower quartile of the runs");
    for (which, name) in ["aim", "speed", "rhythm", "flashlight"].into_iter().enumerate() {
        let time = quartile(|_| { std::hint::black_box(unsafe { rattle_evaluate(which, chart.as_ptr(), chart.len(), records.as_ptr(), records.len()) }); });
        println!("{name:<12} {:>8.0}", (time - check) * 1000.0 / (n - 1) as f64);
    }
    println!("{:<12} {:>8.0}", "check", check * 1000.0 / n as f64);
}
