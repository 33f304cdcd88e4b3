//! A pack of 256 charts of 1,000 objects: ranking it, against opening and rating the charts one by one; and two listings of its halves joined.
#![allow(dead_code)]
#[path = "charts.rs"]
mod charts;
#[path = "clock.rs"]
mod clock;
#[path = "../clients/station.rs"]
mod station;

const LISTED: usize = 256;
const OBJECTS: usize = 1000;
const NUMBERS: [f64; 5] = [9.5, 8.0, 1.14, 0.0, 0.0];

struct Tables {
    records: Vec<f64>,
    values: Vec<f64>,
    scratch: Vec<Vec<f64>>,
}

fn each(scratch: &mut [Vec<f64>]) -> [&mut [f64]; 4] {
    let [a, b, c, d] = scratch else { unreachable!() };
    [a, b, c, d]
}

impl Tables {
    fn rank(&mut self, pack: &[u8], list: &mut [u64], first: usize) {
        station::join(pack, list, first, 0, 0, &NUMBERS, &mut self.records, &mut self.values, each(&mut self.scratch)).expect("ranked");
    }

    fn one_by_one(&mut self, pack: &[u8], size: usize) {
        for chart in pack.chunks(size) {
            station::open(chart, &mut self.records, &mut self.values).expect("opened");
            station::ratings(chart, &self.values, 0, 0, &NUMBERS, each(&mut self.scratch), &mut [0.0; 4]).expect("rated");
        }
    }
}

fn measure(name: &str, tables: &mut Tables, pack: &[u8], size: usize) {
    let offsets: Vec<u64> = (0..LISTED).map(|i| (i * size) as u64).collect();
    let [alone, ranked, joined] = clock::quartiles(|_| {
        let (mut all, mut parts) = (offsets.clone(), offsets.clone());
        let alone = clock::timed(|| tables.one_by_one(pack, size));
        let ranked = clock::timed(|| tables.rank(pack, &mut all, 0));
        tables.rank(pack, &mut parts[..LISTED / 2], 0);
        tables.rank(pack, &mut parts[LISTED / 2..], 0);
        let joined = clock::timed(|| tables.rank(pack, &mut parts, LISTED / 2));
        assert_eq!(all, parts);
        [alone, ranked, joined]
    });
    println!("{name}: one by one {:.0} ms, ranked {:.0} ms ({:.3} times), joined {:.0} ms ({:.3} times)", alone / 1e3, ranked / 1e3, ranked / alone, joined / 1e3, joined / alone);
}

fn main() {
    let chart = charts::chart(OBJECTS);
    let mut tables = Tables { records: vec![0.0; 16 * OBJECTS], values: vec![0.0; 5 * OBJECTS], scratch: vec![vec![0.0; 8192]; 4] };
    let mut pack = chart.repeat(LISTED);
    measure("256 equal charts of 1,000 objects", &mut tables, &pack, chart.len());
    for i in 0..LISTED {
        charts::put(&mut pack, i * chart.len() + 32, &(1.0 + (i * 37 % 256) as f64 / 1024.0).to_le_bytes());
    }
    measure("256 charts of 1,000 objects at other clock rates", &mut tables, &pack, chart.len());
}
