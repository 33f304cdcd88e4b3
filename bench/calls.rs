//! Microseconds of each call on charts of several sizes, lower quartile of the runs. Insertions and removals stand beside what it takes to move as many bytes of
//! the chart and rows of the tables by the standard library's functions; the totals while playing, counts and ratings beside the totals; a replacement for two players beside one for the first. Where a folder with the oracle's programs is named as the argument, their
//! times on the same charts stand beside: `source` works out the records and the four skills' totals, as opening and totals do. There ours and both of the oracle's programs take turns, all by
//! processor time (cputime.rs); each turn has its best run, and the lower quartile of the turns is told, with the spread of the turns.
mod charts;
mod clock;
#[path = "../clients/station.rs"]
mod station;
use charts::{chart, put};
use clock::{now, quartile, quartiles, timed};
use station::{mods, COUNTS, OBJECT, RATINGS, RECORD, SCRATCH, TOTALS, VALUES};
use std::process::Command;

const SIZES: [usize; 4] = [100, 1000, 4000, 16384];

struct Station {
    chart: Vec<u8>,
    records: Vec<f64>,
    values: Vec<f64>,
    scratch: [Vec<f64>; 4],
    n: usize,
}

impl Station {
    fn new(n: usize) -> Self {
        let scratch = std::array::from_fn(|_| vec![0.0; SCRATCH]);
        Station { chart: chart(n), records: vec![0.0; RECORD * n], values: vec![0.0; VALUES * n], scratch, n }
    }

    fn open(&mut self) {
        station::open(&self.chart, &mut self.records, &mut self.values).unwrap();
    }

    fn totals(&mut self) {
        let scratch = self.scratch.each_mut().map(|s| &mut s[..]);
        station::totals(&self.chart, &self.values, scratch, &mut [0.0; TOTALS]).unwrap();
    }

    fn counts(&mut self) {
        let scratch = self.scratch.each_mut().map(|s| &mut s[..]);
        station::counts(&self.chart, &self.values, scratch, &mut [0.0; COUNTS]).unwrap();
    }

    fn ratings(&mut self) {
        let scratch = self.scratch.each_mut().map(|s| &mut s[..]);
        let numbers = [9.5, 8.0, 1.14, 0.5, 2.0];
        let (word, given) = (mods::HIDDEN | mods::FLASHLIGHT, mods::ATTRACTION | mods::START_SCALE);
        station::ratings(&self.chart, &self.values, word, given, &numbers, scratch, &mut [0.0; RATINGS]).unwrap();
    }

    fn playing(&mut self, list: &mut [f64]) {
        let scratch = self.scratch.each_mut().map(|s| &mut s[..]);
        station::totals_while_playing(&self.chart, &self.values, list, scratch).unwrap();
    }

    /// Moves the object to and fro.
    fn replace(&mut self, place: usize, turn: usize) {
        let mut object = [0; OBJECT];
        object.copy_from_slice(&self.chart[80 + OBJECT * place..][..OBJECT]);
        put(&mut object, 16, &(100.0 + (turn % 2) as f32).to_le_bytes());
        station::replace(&mut self.chart, place, &object, &mut self.records, &mut self.values).unwrap();
    }

    /// Takes the object at a place out and puts it in again: microseconds of the insertion and of the removal.
    fn out_and_in(&mut self, place: usize) -> [f64; 2] {
        let object = self.chart[80 + OBJECT * place..][..OBJECT].to_vec();
        let remove = timed(|| station::remove(&mut self.chart, place, &mut self.records, &mut self.values).unwrap());
        let insert = timed(|| station::insert(&mut self.chart, place, &object, &mut self.records, &mut self.values).unwrap());
        [insert, remove]
    }

    /// What an insertion at a place moves, by copies within slices.
    fn moved(chart: &mut [u8], records: &mut [f64], values: &mut [f64], n: usize, place: usize) {
        let (at, row) = (80 + OBJECT * place, place.max(1));
        chart.copy_within(at..chart.len() - OBJECT, at + OBJECT);
        if row + 1 < n {
            records.copy_within(RECORD * row..RECORD * (n - 1), RECORD * (row + 1));
            values.copy_within(VALUES * row..VALUES * (n - 1), VALUES * (row + 1));
        }
    }

    fn read(&mut self, turn: usize) {
        let place = 1 + turn % (self.n - 1);
        station::read_record(&self.chart, &self.records, place, &mut [0.0; RECORD]).unwrap();
        station::read_values(&self.chart, &self.values, place, &mut [0.0; VALUES]).unwrap();
    }
}

/// How often ours and the oracle's programs take turns.
const TURNS: usize = 3;

/// What gives the oracle's programs processor time for a clock; `bench/run` builds it.
const CLOCK: &str = "target/libcputime.so";

/// Microseconds of the oracle's `source`, best of its runs.
fn oracle(folder: &str, program: &str, chart: &str) -> f64 {
    let told = Command::new(format!("{folder}/{program}")).args(["bench", chart]).env("LD_PRELOAD", CLOCK).output().expect("the oracle runs");
    let told = String::from_utf8(told.stdout).unwrap();
    let line = told.lines().find(|l| l.starts_with("source")).expect("its line `source`");
    let seconds = line.split("best ").nth(1).and_then(|rest| rest.split(',').next()).expect("the best of its runs");
    seconds.parse::<f64>().unwrap() * 1e6
}

/// Microseconds of an opening with its totals, best of the runs that a second has room for.
fn ours(s: &mut Station) -> f64 {
    let (whole, mut best) = (now(), f64::INFINITY);
    while now() < whole + 1e6 {
        best = best.min(timed(|| {
            s.open();
            s.totals();
        }));
    }
    best
}

/// The lower quartile of the turns, and how much more the slowest took than the fastest.
fn of_turns(mut turns: Vec<f64>) -> (f64, f64) {
    turns.sort_by(f64::total_cmp);
    (turns[turns.len() / 4], turns[turns.len() - 1] / turns[0] - 1.0)
}

/// The line of an opening with its totals, beside the oracle's.
fn beside(folder: &str, s: &mut Station) -> String {
    let name = format!("target/bench-{}.chart", s.n);
    std::fs::write(&name, &s.chart).unwrap();
    let mut turns = [vec![], vec![], vec![]];
    for _ in 0..TURNS {
        turns[0].push(ours(s));
        turns[1].push(oracle(folder, "oracle", &name));
        turns[2].push(oracle(folder, "oracle-native", &name));
    }
    let [(us, a), (bound, b), (native, c)] = turns.map(of_turns);
    let percent = |x: f64| format!("{:.0}%", x * 100.0);
    format!(
        "{:>6} {us:>12.1} {:>8.3} {bound:>12.1} {:>8.2} {native:>12.1} {:>8.2} {:>6} {:>6} {:>6}",
        s.n, us / s.n as f64, us / bound, us / native, percent(a), percent(b), percent(c)
    )
}

/// The line of insertions and removals, beside an opening and replacements at the same places.
fn edits_of(s: &mut Station, open: f64, replace: [f64; 3]) -> String {
    let n = s.n;
    let places = [0, n / 2, n - 1];
    let edits = places.map(|place| quartiles(|_| s.out_and_in(place)));
    let (mut chart, mut records, mut values) = (s.chart.clone(), s.records.clone(), s.values.clone());
    let moves = places.map(|place| quartile(|_| Station::moved(&mut chart, &mut records, &mut values, n, place)));
    let slower = edits.map(|[insert, remove]| insert.max(remove));
    let over = (0..3).map(|k| slower[k] / (replace[k] + moves[k])).fold(0.0, f64::max);
    let three = |t: [f64; 3]| t.map(|x| format!("{x:>8.1}")).join(", ");
    let slowest = slower.into_iter().fold(0.0, f64::max);
    format!("{n:>6} {} {} {} {over:>10.2} {:>9.1}", three(edits.map(|e| e[0])), three(edits.map(|e| e[1])), three(moves), open / slowest)
}

/// The line of what is worked out over all values, beside the totals.
fn figures_of(s: &mut Station, totals: f64) -> String {
    let mut list = vec![0.0; TOTALS * (s.n + 1)];
    let (counts, ratings, playing) = (quartile(|_| s.counts()), quartile(|_| s.ratings()), quartile(|_| s.playing(&mut list)));
    format!(
        "{:>6} {totals:>10.1} {counts:>10.1} {:>7.2} {ratings:>10.1} {:>7.2} {playing:>12.1} {:>7.2} {:>8.3}",
        s.n, counts / totals, ratings / totals, playing / totals, playing / s.n as f64
    )
}

/// The line of replacements for both players, the second at double speed, beside those for the first: in turns, at 0, N/2 and N-1.
fn players_of(s: &mut Station) -> String {
    let mut settings = s.chart[32..80].to_vec();
    let clock = f64::from_le_bytes(settings[..8].try_into().unwrap());
    put(&mut settings, 0, &(2.0 * clock).to_le_bytes());
    let (mut records, mut values) = (s.records.clone(), s.values.clone());
    station::open_as(&s.chart, &settings, &mut records, &mut values).unwrap();
    let times = [0, s.n / 2, s.n - 1].map(|place| quartiles(|turn| {
        let one = timed(|| s.replace(place, turn));
        let object = s.chart[80 + OBJECT * place..][..OBJECT].to_vec();
        let both = timed(|| {
            station::replace_both(&mut s.chart, &settings, place, &object, &mut s.records, &mut s.values, &mut records, &mut values).unwrap()
        });
        [one, both]
    }));
    let over = times.iter().map(|[one, both]| both / one).fold(0.0, f64::max);
    let three = |k: usize| times.map(|t| format!("{:>8.1}", t[k])).join(", ");
    format!("{:>6} {} {} {over:>10.2}", s.n, three(0), three(1))
}

fn print_players(lines: &[String]) {
    println!("replacements for one player and for both, each at 0, N/2 and N-1; both over one: the largest");
    println!("{:>6} {:>28} {:>28} {:>10}", "N", "one", "both", "over");
    lines.iter().for_each(|line| println!("{line}"));
}

fn main() {
    let folder = std::env::args().nth(1);
    println!("microseconds of processor time, lower quartile of the runs");
    println!("{:>6} {:>10} {:>8} {:>10} {:>10} {:>10} {:>9} {:>8} {:>8} {:>8}", "N", "open", "per N", "replace 0", "at N/2", "at N-1", "readings", "totals", "per N", "open/rep");
    let (mut stations, mut edits, mut figures, mut players) = (vec![], vec![], vec![], vec![]);
    for n in SIZES {
        let mut s = Station::new(n);
        let open = quartile(|_| s.open());
        let replace = [0, n / 2, n - 1].map(|place| quartile(|turn| s.replace(place, turn)));
        let read = quartile(|turn| (0..100).for_each(|k| s.read(100 * turn + k))) / 100.0;
        let totals = quartile(|_| s.totals());
        let slowest = replace.into_iter().fold(0.0, f64::max);
        println!(
            "{n:>6} {open:>10.1} {:>8.3} {:>10.1} {:>10.1} {:>10.1} {read:>9.3} {totals:>8.1} {:>8.3} {:>8.1}",
            open / n as f64, replace[0], replace[1], replace[2], totals / n as f64, open / slowest
        );
        figures.push(figures_of(&mut s, totals));
        edits.push(edits_of(&mut s, open, replace));
        players.push(players_of(&mut s));
        stations.push(s);
    }
    println!("each at 0, N/2 and N-1; an edit over a replacement at its place and the moves: the largest");
    println!("{:>6} {:>28} {:>28} {:>28} {:>10} {:>9}", "N", "insert", "remove", "moves", "over", "open/edit");
    edits.iter().for_each(|line| println!("{line}"));
    println!("over all values; each over the totals of the same chart");
    println!("{:>6} {:>10} {:>10} {:>7} {:>10} {:>7} {:>12} {:>7} {:>8}", "N", "totals", "counts", "over", "ratings", "over", "playing", "over", "per N");
    figures.iter().for_each(|line| println!("{line}"));
    print_players(&players);
    let Some(folder) = folder else {
        println!("no folder with the oracle's programs was named: no comparison");
        return;
    };
    println!("an opening with its totals beside the oracle: lower quartile of {TURNS} turns of each, the best run of each turn; and the spread of the turns of each");
    println!("{:>6} {:>12} {:>8} {:>12} {:>8} {:>12} {:>8} {:>20}", "N", "open+totals", "per N", "bound", "ratio", "native", "ratio", "spread");
    for s in &mut stations {
        println!("{}", beside(&folder, s));
    }
}
