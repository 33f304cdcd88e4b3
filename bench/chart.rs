//! The check of a chart at the limit of N: what it answers, and how long it takes.
use std::time::Instant;

extern "C" {
    fn rattle_check(chart: *const u8, length: usize, entries: usize) -> u64;
}

/// n circles at time 0, clock rate 1, radius 40, factor 1.25, window 50, preempt 600, fade-in 400.
fn circles(n: u32) -> Vec<u8> {
    let end = 80 + 56 * n;
    let mut s = vec![0; end as usize];
    for (at, v) in [(0, n), (12, 80), (16, end), (20, end), (24, end)] {
        s[at..at + 4].copy_from_slice(&v.to_le_bytes());
    }
    for (at, v) in [(32, 1.0), (40, 40.0), (48, 50.0), (56, 600.0), (64, 400.0f64)] {
        s[at..at + 8].copy_from_slice(&v.to_le_bytes());
    }
    s[72..76].copy_from_slice(&1.25f32.to_le_bytes());
    s
}

fn answer(chart: &[u8], entries: usize) -> String {
    match unsafe { rattle_check(chart.as_ptr(), chart.len(), entries) } {
        0 => "opened".to_string(),
        code => format!("refused {} {}", code >> 32, code & 0xFFFF_FFFF),
    }
}

fn main() {
    for (n, entries, expected) in [(16384, 16384, "opened"), (16384, 16383, "refused 7 0"), (16385, 16385, "refused 1 0"), (0, 0, "opened"), (1, 0, "refused 7 0")] {
        let told = answer(&circles(n), entries);
        assert_eq!(told, expected);
        println!("{n} objects, tables of {entries} entries: {told}");
    }
    let chart = circles(16384);
    let mut times: Vec<f64> = (0..201).map(|_| { let t = Instant::now(); answer(&chart, 16384); t.elapsed().as_secs_f64() * 1e6 }).collect();
    times.sort_by(f64::total_cmp);
    println!("check of 16384 circles: {:.0} microseconds (lower quartile of 201)", times[50]);
}
