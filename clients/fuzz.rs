//! Throws random charts, short tables and wild places at every call, and checks after each what holds of every answer; then edits a chart of 16,384 objects, and throws a quarter as many
//! calls for two players (players.rs) and some packs of charts (packs.rs):
//!     fuzz SEED CALLS [FOLDER]
//! With a folder, the charts, the calls and the answers are written there, for tools/fuzz_compare.py.
mod packs;
mod players;
mod station;
use station::{mods, object_size, Answer, Refusal, AIM, COUNTS, NUMBERS, OBJECT, RATINGS, RECORD, RHYTHM, SCRATCH, STATED_OBJECT, TOTALS, VALUES};
use std::cmp::{max, min};
use std::fmt::Write;

const HEADER: usize = 80;
const MOST: usize = 60;
const LARGEST: [usize; 2] = [OBJECT, STATED_OBJECT]; // sizes of the objects of the largest charts

type Read = fn(&[u8], &[f64], usize, &mut [f64]) -> Answer;

/// A reading's word and call, the numbers of an entry of its table and those of its answer.
const READINGS: [(&str, Read, usize, usize); 4] = [
    ("record", station::read_record, RECORD, RECORD),
    ("value", station::read_values, VALUES, VALUES),
    ("parts", station::read_aim_parts, RECORD, AIM),
    ("rhythm", station::read_rhythm, RECORD, RHYTHM),
];
const RECORD_READ: usize = 0;
const VALUES_READ: usize = 1;
const AIM_READ: usize = 2;

/// What is worked out over all values, with what comes with the call.
enum Figure {
    Totals,
    Counts,
    Reached(usize),
    Playing,
    Ratings(u32, u32, Vec<f64>),
}

struct Random(u64);

impl Random {
    fn word(&mut self) -> u64 {
        self.0 ^= self.0 << 13;
        self.0 ^= self.0 >> 7;
        self.0 ^= self.0 << 17;
        self.0.wrapping_mul(0x2545_F491_4F6C_DD1D)
    }

    fn below(&mut self, n: usize) -> usize {
        ((self.word() >> 32) as usize) % n
    }

    fn one_in(&mut self, n: usize) -> bool {
        self.below(n) == 0
    }

    fn wild(&mut self) -> f64 {
        let special = [f64::NAN, f64::INFINITY, -1.0, -0.0, 5e-324, 1e7, 10_000_000.5, 131_073.0, 1e300];
        if self.one_in(3) { f64::from_bits(self.word()) } else { special[self.below(special.len())] }
    }
}

fn put(bytes: &mut [u8], at: usize, field: &[u8]) {
    if at + field.len() <= bytes.len() {
        bytes[at..at + field.len()].copy_from_slice(field);
    }
}

fn count(chart: &[u8]) -> usize {
    chart.get(..4).map_or(0, |b| u32::from_le_bytes(b.try_into().unwrap()) as usize)
}

/// An object of so many bytes that starts at a time; a slider uses the two nested entries and the two points of its place.
fn object(r: &mut Random, place: usize, time: f64, size: usize) -> Vec<u8> {
    let mut o = vec![0; size];
    let kind = [0u32, 0, 1, 2][r.below(4)];
    put(&mut o, 0, &time.to_le_bytes());
    put(&mut o, 8, &(time + [0.0, 60.0, 500.0][kind as usize]).to_le_bytes());
    put(&mut o, 16, &(r.below(512) as f32).to_le_bytes());
    put(&mut o, 20, &(r.below(384) as f32).to_le_bytes());
    put(&mut o, 32, &kind.to_le_bytes());
    if kind == 1 {
        for (k, v) in [1 + r.below(3), 2 * place, 2, 2 * place, 2].into_iter().enumerate() {
            put(&mut o, 36 + 4 * k, &(v as u32).to_le_bytes());
        }
        // its stated length, where objects have one
        let length = [0.0, -0.0, 5e-324, 20.0, r.below(300) as f64, r.below(300) as f64, 1e6][r.below(7)];
        put(&mut o, OBJECT, &length.to_le_bytes());
    }
    o
}

/// A chart of n objects of no contents, each of so many bytes, and as many nested entries and points.
fn empty(n: usize, size: usize, entries: usize, settings: [f64; 5], flags: u32) -> Vec<u8> {
    let (nested_at, points_at) = (HEADER + size * n, HEADER + size * n + 24 * entries);
    let end = points_at + 16 * entries;
    let mut s = vec![0; end];
    let stated = (size == STATED_OBJECT) as usize;
    for (k, v) in [n, entries, entries, HEADER, nested_at, points_at, end, stated].into_iter().enumerate() {
        put(&mut s, 4 * k, &(v as u32).to_le_bytes());
    }
    for (k, v) in settings.into_iter().enumerate() {
        put(&mut s, 32 + 8 * k, &v.to_le_bytes());
    }
    put(&mut s, 72, &1.25f32.to_le_bytes());
    put(&mut s, 76, &flags.to_le_bytes());
    s
}

/// A chart that opens, with stated lengths or without.
fn chart(r: &mut Random) -> Vec<u8> {
    let most = [3, 12, 12, MOST][r.below(4)];
    let (n, size) = (r.below(most), [OBJECT, STATED_OBJECT][r.below(2)]);
    let (nested_at, points_at) = (HEADER + size * n, HEADER + (size + 48) * n);
    let clock = [1.0, 1.5, 0.75][r.below(3)];
    let mut s = empty(n, size, 2 * n, [clock, 40.0, 50.0, 600.0, 400.0], r.below(4) as u32);
    let mut time = 1000.0f64;
    for j in 0..n {
        let o = object(r, j, time, size);
        put(&mut s, HEADER + size * j, &o);
        for (k, kind) in [r.below(2) as u32, 2].into_iter().enumerate() {
            let at = nested_at + 24 * (2 * j + k);
            put(&mut s, at, &(time + 30.0 * (k + 1) as f64).to_le_bytes());
            put(&mut s, at + 8, &(r.below(512) as f32).to_le_bytes());
            put(&mut s, at + 16, &kind.to_le_bytes());
        }
        let at = points_at + 16 * (2 * j + 1);
        put(&mut s, at, &(r.below(200) as f32).to_le_bytes());
        put(&mut s, at + 8, &(r.below(300) as f64).to_le_bytes());
        time += [0.0, 30.0, 90.0, 120.0, 180.0, 700.0][r.below(6)];
    }
    s
}

/// What an edit can have made anew in the records and in the values, from row to before row.
struct Windows {
    records: (usize, usize),
    values: (usize, usize),
}

impl Windows {
    fn new(place: usize, records_end: usize, values_end: usize) -> Self {
        Windows { records: (max(place, 1), records_end), values: (max(place, 2) - 1, values_end) }
    }
}

/// The buffer with an object put in at a place, or the object there taken out; the bytes behind the chart's new end are as they were.
fn edited(buffer: &[u8], place: usize, object: Option<&[u8]>) -> Vec<u8> {
    let word = |at: usize| u32::from_le_bytes(buffer[at..at + 4].try_into().unwrap());
    let size = object_size(buffer);
    let (at, end) = (HEADER + size * place, word(24) as usize);
    let mut new = buffer[..at].to_vec();
    match object {
        Some(object) => new.extend([object, &buffer[at..end]].concat()),
        None => new.extend(&buffer[at + size..end]),
    }
    for (k, by) in [(0, 1), (16, size as u32), (20, size as u32), (24, size as u32)] {
        let other = if object.is_some() { word(k) + by } else { word(k) - by };
        put(&mut new, k, &other.to_le_bytes());
    }
    new.extend(&buffer[new.len()..]);
    new
}

/// One piece of damage; none changes the length of the chart.
fn damage(r: &mut Random, s: &mut [u8]) -> (usize, Vec<u8>) {
    let (n, size) = (count(s).min(MOST), object_size(s));
    let (at, field) = match r.below(13) {
        0 => (4 * r.below(20), (r.below(90_000) as u32).to_le_bytes().to_vec()),
        1 => (32 + 8 * r.below(5), r.wild().to_le_bytes().to_vec()),
        2 | 3 => (HEADER + size * r.below(n + 1) + 8 * r.below(2), r.wild().to_le_bytes().to_vec()),
        4..=6 => (HEADER + size * r.below(n + 1) + 32 + 4 * r.below(6), (r.below(1100) as u32).to_le_bytes().to_vec()),
        7..=10 => (HEADER + size * n + 4 * r.below(20 * n + 1), (r.wild() as f32).to_le_bytes().to_vec()),
        11 => (HEADER + size * r.below(n + 1) + OBJECT, r.wild().to_le_bytes().to_vec()),
        _ => (r.below(s.len() + 1), vec![r.word() as u8]),
    };
    let field = if at + field.len() <= s.len() { field } else { vec![] };
    let at = if field.is_empty() { 0 } else { at };
    put(s, at, &field);
    (at, field)
}

/// A buffer for a round: a chart that is sound, damaged, cut, lengthened, or noise, and room behind it or none.
fn any_chart(r: &mut Random) -> Vec<u8> {
    let mut s = chart(r);
    match r.below(10) {
        0..=4 => {}
        5 | 6 | 7 => drop(damage(r, &mut s)),
        8 => (0..3).for_each(|_| drop(damage(r, &mut s))),
        _ if r.one_in(2) => s.resize(r.below(s.len() + 40), 7),
        _ => s = (0..r.below(400)).map(|_| r.word() as u8).collect(),
    }
    let size = object_size(&s);
    let behind = [0, 0, 1, size - 1, size, size + 1, 2 * size, 5 * size][r.below(8)];
    s.extend((0..behind).map(|_| r.word() as u8));
    s
}

fn hex(bytes: &[u8]) -> String {
    if bytes.is_empty() { "-".into() } else { bytes.iter().map(|b| format!("{b:02X}")).collect() }
}

fn words(numbers: &[f64]) -> String {
    numbers.iter().map(|x| format!(" {:016X}", if x.is_nan() { 0x7FF8_0000_0000_0000 } else { x.to_bits() })).collect()
}

/// A record in the oracle's order of printing: each flag before its numbers.
fn record_words(x: &[f64]) -> String {
    let single = |v: f64| format!(" {:08X}", (v as f32).to_bits());
    let flag = |v: f64| format!(" {}", (v != 0.0) as u8);
    words(&x[..8]) + &flag(x[14]) + &single(x[8]) + &single(x[9]) + &words(&x[10..12]) + &flag(x[15]) + &words(&x[12..14])
}

/// A reading's numbers as the oracle prints them: a rule and a count are whole.
fn read_words(reading: usize, x: &[f64]) -> String {
    let whole = |v: f64| format!(" {}", v as u64);
    match reading {
        RECORD_READ => record_words(x),
        VALUES_READ => words(&x[..VALUES]),
        AIM_READ => words(&x[..8]) + &whole(x[8]) + &words(&x[9..17]) + &whole(x[17]),
        _ => words(&x[..1]) + &whole(x[1]),
    }
}

fn same(a: &[f64], b: &[f64]) -> bool {
    a.len() == b.len() && a.iter().zip(b).all(|(x, y)| x.to_bits() == y.to_bits())
}

/// Rows lo to hi - 1 of a table are the same in both; hi beyond the last is taken as the end.
fn same_rows(w: usize, a: &[f64], b: &[f64], lo: usize, hi: usize) -> bool {
    let end = (w * hi).min(a.len());
    let start = (w * lo).min(end);
    same(&a[start..end], &b[start..end])
}

/// A table after an edit, `old` before it: rows that are not made anew stand as they were, those from `place` to the new N moved by `by`.
fn moved_rows(w: usize, old: &[f64], new: &[f64], place: usize, n: usize, by: isize, made: (usize, usize)) -> bool {
    let row = |t: &[f64], j: usize| t[w * j..][..w].to_vec();
    let first = (max(place, 1) as isize + max(by, 0)) as usize;
    let from = |j: usize| if j < first { j } else { (j as isize - by) as usize };
    let kept = (1..n).filter(|j| !(made.0..made.1).contains(j)).all(|j| same(&row(old, from(j)), &row(new, j)));
    kept && same_rows(w, old, new, 0, 1) && same_rows(w, old, new, n, usize::MAX / 64)
}

#[derive(Default)]
struct Counts {
    calls: [u64; 13],
    refused: [u64; 11],
    compared: u64,
}

impl Counts {
    fn print(&self, seed: u64, rounds: u64) {
        let [open, replace, insert, remove, record, value, parts, rhythm, totals, counted, reached, playing, ratings] = self.calls;
        println!("seed {seed}: {rounds} charts; open {open}, replace {replace}, insert {insert}, remove {remove}");
        println!("read record {record}, read values {value}, read aim parts {parts}, read rhythm {rhythm}");
        println!("totals {totals}, counts {counted}, totals to {reached}, totals while playing {playing}, ratings {ratings}");
        println!("carried out {}, refused by number {:?}; {} of those carried out were on the chart's own tables", self.refused[0], &self.refused[1..], self.compared);
    }
}

struct Round {
    chart: Vec<u8>,
    records: Vec<f64>,
    values: Vec<f64>,
    scratch: [Vec<f64>; 4],
    fresh: bool,
    script: String,
    answers: String,
}

impl Round {
    fn new(r: &mut Random, scratch: [Vec<f64>; 4]) -> Self {
        let chart = any_chart(r);
        let n = count(&chart).min(MOST) + r.below(5);
        let records = (0..RECORD * n + r.below(20)).map(|_| r.wild()).collect();
        let values = (0..VALUES * n + r.below(7)).map(|_| r.wild()).collect();
        Round { chart, records, values, scratch, fresh: false, script: String::new(), answers: String::new() }
    }

    /// A length to lend of a table: most often all of it, else any part, or about as much as N entries take.
    fn length(&self, r: &mut Random, whole: usize, w: usize) -> usize {
        match r.below(8) {
            0 => r.below(whole + 1),
            1 => (w * count(&self.chart).min(MOST) + r.below(3)).saturating_sub(1).min(whole),
            _ => whole,
        }
    }

    fn place(&self, r: &mut Random) -> usize {
        let n = count(&self.chart).min(MOST);
        match r.below(10) {
            0 => n + r.below(3),
            1 => [usize::MAX, 1 << 32, (1 << 32) + 1, 1 << 63, 65_536][r.below(5)],
            2 => 0,
            3 | 4 => n.saturating_sub(1),
            _ => r.below(n + 1),
        }
    }

    fn tell(&mut self, answer: Answer, done: String) {
        match answer {
            Ok(()) => writeln!(self.answers, "{done}").unwrap(),
            Err(Refusal { number, place }) => writeln!(self.answers, "refused {number} {place}").unwrap(),
        }
    }

    /// What an opening of the chart as it stands puts into other tables.
    fn opened_afresh(&self) -> (Vec<f64>, Vec<f64>) {
        let n = count(&self.chart);
        let (mut records, mut values) = (vec![7.0; RECORD * n], vec![7.0; VALUES * n]);
        assert_eq!(station::open(&self.chart, &mut records, &mut values), Ok(()), "a chart that was accepted opens");
        (records, values)
    }

    fn check_fresh(&self) {
        let (records, values) = self.opened_afresh();
        assert!(same_rows(RECORD, &records, &self.records, 1, count(&self.chart)), "records as a fresh opening's");
        assert!(same_rows(VALUES, &values, &self.values, 1, count(&self.chart)), "values as a fresh opening's");
    }

    /// A round on a chart of as many circles of a size, with room for an object more in buffer and tables.
    fn of_circles(n: usize, size: usize, scratch: [Vec<f64>; 4]) -> Self {
        let mut chart = empty(n, size, 0, [1.0, 40.0, 50.0, 600.0, 400.0], 0);
        for j in 0..n {
            let (time, x) = (100.0 * j as f64, (j * j % 509) as f32);
            put(&mut chart, HEADER + size * j, &[time.to_le_bytes(), time.to_le_bytes()].concat());
            put(&mut chart, HEADER + size * j + 16, &x.to_le_bytes());
        }
        chart.resize(chart.len() + size + 1, 0xA5);
        let (records, values) = (vec![7.0; RECORD * (n + 1)], vec![7.0; VALUES * (n + 1)]);
        Round { chart, records, values, scratch, fresh: false, script: String::new(), answers: String::new() }
    }

    fn open_whole(&mut self) {
        writeln!(self.script, "open {} {}", self.records.len() / RECORD, self.values.len() / VALUES).unwrap();
        let answer = station::open(&self.chart, &mut self.records, &mut self.values);
        self.fresh = answer.is_ok();
        self.tell(answer, "opened".into());
    }

    /// Writes the chart to the folder, and says so in script and answers.
    fn name(&mut self, folder: &str, number: u64) {
        let line = format!("file {folder}/{number}.chart\n");
        std::fs::write(&line[5..line.len() - 1], &self.chart).unwrap();
        self.script += &line;
        self.answers += &line;
    }

    /// The last line of the answers, and both texts.
    fn told(mut self) -> (String, String) {
        writeln!(self.answers, "chart {} {:016X}", self.chart.len(), fnv(&self.chart)).unwrap();
        (self.script, self.answers)
    }

    fn open(&mut self, r: &mut Random) -> Answer {
        let (rl, vl) = self.lengths(r);
        writeln!(self.script, "open {} {}", rl / RECORD, vl / VALUES).unwrap();
        let (chart, records, values) = (self.chart.clone(), self.records.clone(), self.values.clone());
        let answer = station::open(&self.chart, &mut self.records[..rl], &mut self.values[..vl]);
        assert!(chart == self.chart, "opening leaves the chart");
        let n = if answer.is_ok() { count(&self.chart) } else { 0 };
        assert!(same_rows(RECORD, &records, &self.records, 0, 1.min(n)) && same_rows(RECORD, &records, &self.records, n, usize::MAX / 64));
        assert!(same_rows(VALUES, &values, &self.values, 0, 1.min(n)) && same_rows(VALUES, &values, &self.values, n, usize::MAX / 64));
        if answer.is_ok() {
            self.fresh = true;
            self.check_fresh();
        }
        self.tell(answer, "opened".into());
        answer
    }

    fn new_object(&self, r: &mut Random, place: usize) -> Vec<u8> {
        let (n, size) = (count(&self.chart).min(MOST), object_size(&self.chart));
        let at = HEADER + size * place.min(n);
        let old = self.chart.get(at..at.saturating_add(8)).map_or(0.0, |b| f64::from_le_bytes(b.try_into().unwrap()));
        let entries = self.chart.get(4..8).map_or(0, |b| u32::from_le_bytes(b.try_into().unwrap()) as usize);
        let near = min(place, min(max(n, 1), max(entries / 2, 1)) - 1);
        let time = if r.one_in(6) { old + [40.0, 900.0, 4e6, -300.0][r.below(4)] } else { old };
        let mut o = object(r, near, time, size);
        match r.below(9) {
            0 => put(&mut o, 8 * r.below(2), &r.wild().to_le_bytes()),
            1 => put(&mut o, 16 + 4 * r.below(10), &(r.word() as u32).to_le_bytes()),
            2 => o.truncate(r.below(size + 4)),
            3 => o.resize(OBJECT + r.below(17), 0),
            4 if size == STATED_OBJECT => put(&mut o, OBJECT, &r.wild().to_le_bytes()),
            _ => {}
        }
        o
    }

    /// Lengths to lend of both tables.
    fn lengths(&self, r: &mut Random) -> (usize, usize) {
        (self.length(r, self.records.len(), RECORD), self.length(r, self.values.len(), VALUES))
    }

    fn replace(&mut self, r: &mut Random) -> Answer {
        let place = self.place(r);
        let o = self.new_object(r, place);
        let (rl, vl) = self.lengths(r);
        writeln!(self.script, "replace {place} {} {} {}", hex(&o), rl / RECORD, vl / VALUES).unwrap();
        let (mut chart, records, values) = (self.chart.clone(), self.records.clone(), self.values.clone());
        let answer = station::replace(&mut self.chart, place, &o, &mut self.records[..rl], &mut self.values[..vl]);
        if answer.is_ok() {
            put(&mut chart, HEADER + object_size(&self.chart) * place, &o);
            let end = usize::MAX / 64;
            assert!(same_rows(RECORD, &records, &self.records, 0, place.max(1)) && same_rows(RECORD, &records, &self.records, place + 3, end));
            assert!(same_rows(VALUES, &values, &self.values, 0, place.max(2) - 1) && same_rows(VALUES, &values, &self.values, place + 34, end));
            if self.fresh {
                self.check_fresh();
            }
        } else {
            assert!(same(&records, &self.records) && same(&values, &self.values), "a refusal leaves the tables");
        }
        assert!(chart == self.chart, "the chart has the object, and is else as it was");
        self.tell(answer, "accepted".into());
        answer
    }

    /// An object put in at a place, or the one there taken out.
    fn edit(&mut self, place: usize, object: Option<&[u8]>, (rl, vl): (usize, usize)) -> Answer {
        let (chart, records, values) = (self.chart.clone(), self.records.clone(), self.values.clone());
        let (lent_records, lent_values) = (&mut self.records[..rl], &mut self.values[..vl]);
        let (line, answer) = match object {
            Some(o) => (format!("insert {place} {}", hex(o)), station::insert(&mut self.chart, place, o, lent_records, lent_values)),
            None => (format!("remove {place}"), station::remove(&mut self.chart, place, lent_records, lent_values)),
        };
        writeln!(self.script, "{line} {} {}", rl / RECORD, vl / VALUES).unwrap();
        if answer.is_ok() {
            assert!(edited(&chart, place, object) == self.chart, "the chart is edited, and the bytes behind it are as they were");
            let (n, by) = (count(&self.chart), if object.is_some() { 1 } else { -1 });
            let made = if by == 1 { Windows::new(place, max(place + 3, 4), place + 34) } else { Windows::new(place, max(place + 2, 3), place + 33) };
            assert!(moved_rows(RECORD, &records, &self.records, place, n, by, made.records), "records that are not made anew move with their objects");
            assert!(moved_rows(VALUES, &values, &self.values, place, n, by, made.values), "values that are not made anew move with their objects");
            if self.fresh {
                self.check_fresh();
            }
        } else {
            assert!(chart == self.chart && same(&records, &self.records) && same(&values, &self.values), "a refusal changes nothing");
        }
        self.tell(answer, "accepted".into());
        answer
    }

    fn insert(&mut self, r: &mut Random) -> Answer {
        let place = if r.one_in(3) { count(&self.chart).min(MOST) } else { self.place(r) };
        let o = self.new_object(r, place);
        let lengths = self.lengths(r);
        self.edit(place, Some(&o), lengths)
    }

    fn remove(&mut self, r: &mut Random) -> Answer {
        let (place, lengths) = (self.place(r), self.lengths(r));
        self.edit(place, None, lengths)
    }

    /// What is read of tables that a fresh opening gives: the row that the table has, or the value in it.
    fn check_read(&self, reading: usize, place: usize, out: &[f64]) {
        let (record, values) = (&self.records[RECORD * place..][..RECORD], &self.values[VALUES * place..][..VALUES]);
        match reading {
            RECORD_READ => assert!(same(&out[..RECORD], record), "the record that the table has"),
            VALUES_READ => assert!(same(&out[..VALUES], values), "the values that the table has"),
            AIM_READ => assert!(same(&[out[0], out[9]], &values[..2]), "aim is the table's"),
            _ => assert!(same(&out[..1], &values[3..4]) && (0.0..=406.0).contains(&out[1]), "the rhythm value is the table's, with at most 406 comparisons"),
        }
    }

    /// A reading of either table into a slice that has room or has not.
    fn read(&mut self, r: &mut Random, reading: usize) -> Answer {
        let (word, read, entry, w) = READINGS[reading];
        let table = if entry == RECORD { &self.records } else { &self.values };
        let (place, length) = (self.place(r), self.length(r, table.len(), entry));
        let room = if r.one_in(8) { r.below(w) } else { w + r.below(3) };
        let usable = if room < w { 0 } else { length / entry };
        let mut out: Vec<f64> = (0..room).map(|_| r.wild()).collect();
        let (before, chart, kept) = (out.clone(), self.chart.clone(), table.clone());
        let answer = read(&self.chart, &table[..length], place, &mut out);
        assert!(chart == self.chart && same(&kept, table), "a reading changes neither chart nor table");
        let written = if answer.is_ok() { w } else { 0 };
        assert!(same(&before[written..], &out[written..]), "nothing else is written");
        if answer.is_ok() && self.fresh {
            self.check_read(reading, place, &out);
        }
        let numbers = if written == 0 { String::new() } else { read_words(reading, &out) };
        if room < w && count(&self.chart) == 0 {
            // the oracle, which is lent no slice for its answer, knows no 7 where N is 0
            assert!(matches!(answer, Err(Refusal { number: 1 | 7, .. })), "{answer:?}");
            return answer;
        }
        writeln!(self.script, "{word} {place} {usable}").unwrap();
        self.tell(answer, format!("{word} {place}{numbers}"));
        answer
    }

    /// A figure with what comes with it; some of its numbers are not finite, or there are too few.
    fn asked(&self, r: &mut Random, which: usize) -> Figure {
        match which {
            0 => Figure::Totals,
            1 => Figure::Counts,
            2 => Figure::Reached(self.place(r)),
            3 => Figure::Playing,
            _ => {
                let usual = [9.5, 8.0, 1.14, 0.5, 2.0, -3.0, 7.5, 10.33, 11.2, 0.0];
                let numbers = (0..NUMBERS).map(|_| if r.one_in(12) { r.wild() } else { usual[r.below(usual.len())] }).collect();
                Figure::Ratings(r.word() as u32, r.word() as u32, if r.one_in(12) { vec![1.0; r.below(NUMBERS)] } else { numbers })
            }
        }
    }

    /// Numbers that the figure writes, and those to lend for them: too few, just enough or more.
    fn room(&self, r: &mut Random, figure: &Figure) -> (usize, usize) {
        let w = match figure {
            Figure::Counts => COUNTS,
            Figure::Playing => TOTALS * (count(&self.chart).min(MOST) + 1),
            Figure::Ratings(..) => RATINGS,
            _ => TOTALS,
        };
        (w, if r.one_in(8) { r.below(w) } else { w + r.below(7) })
    }

    /// The call's words for the oracle, which is lent no slice for an answer or numbers: one that is too short counts as scratch.
    fn question(&self, figure: &Figure, (w, room): (usize, usize), entries: usize, lengths: [usize; 4]) -> String {
        let (words, short) = match figure {
            Figure::Totals => ("totals".into(), room < w),
            Figure::Counts => ("counts".into(), room < w),
            Figure::Reached(m) => (format!("prefix {m}"), room < w),
            Figure::Playing => (format!("prefixes {}", room / TOTALS), false),
            Figure::Ratings(word, given, numbers) => {
                let bits: Vec<String> = (0..NUMBERS).map(|k| numbers.get(k).map_or("0".repeat(16), |x| format!("{:016x}", x.to_bits()))).collect();
                let optional = |bit, k: usize| if given & bit != 0 { &bits[k][..] } else { "-" };
                let two = [optional(mods::ATTRACTION, 3), optional(mods::START_SCALE, 4)];
                (format!("ratings {word} {} {} {} {} {}", bits[0], bits[1], bits[2], two[0], two[1]), room < w || numbers.len() < NUMBERS)
            }
        };
        let told = if short { [0; 4] } else { lengths };
        format!("{words} {entries} / {} {} {} {}", told[0], told[1], told[2], told[3])
    }

    fn figure(&mut self, r: &mut Random, which: usize) -> Answer {
        let figure = self.asked(r, which);
        let vl = self.length(r, self.values.len(), VALUES);
        let lengths: [usize; 4] = std::array::from_fn(|_| if r.one_in(12) { r.below(SCRATCH) } else { SCRATCH });
        let (w, room) = self.room(r, &figure);
        for s in &mut self.scratch {
            let k = r.below(SCRATCH);
            s[k] = r.wild();
        }
        let mut out: Vec<f64> = (0..room).map(|_| r.wild()).collect();
        let (before, chart, values, scratch) = (out.clone(), self.chart.clone(), self.values.clone(), self.scratch.clone());
        let mut k = 0;
        let slices = self.scratch.each_mut().map(|s| { k += 1; &mut s[..lengths[k - 1]] });
        let table = &self.values[..vl];
        let answer = match &figure {
            Figure::Totals => station::totals(&self.chart, table, slices, &mut out),
            Figure::Counts => station::counts(&self.chart, table, slices, &mut out),
            Figure::Reached(m) => station::totals_to(&self.chart, table, *m, slices, &mut out),
            Figure::Playing => station::totals_while_playing(&self.chart, table, &mut out, slices),
            Figure::Ratings(word, given, numbers) => station::ratings(&self.chart, table, *word, *given, numbers, slices, &mut out),
        };
        assert!(chart == self.chart && same(&values, &self.values), "a figure changes neither chart nor table");
        if answer.is_ok() {
            assert!(self.scratch.iter().zip(lengths).all(|(s, l)| s[..l].iter().all(|x| x.to_bits() == 0)), "all scratch is 0");
            assert!(same(&before[w..], &out[w..]), "nothing else is written, nor list entries past N");
        } else {
            assert!(same(&before, &out) && self.scratch.iter().zip(&scratch).all(|(a, b)| same(a, b)), "a refusal writes nothing");
        }
        let question = self.question(&figure, (w, room), vl / VALUES, lengths);
        let numbers = if answer.is_ok() { words(&out[..w]) } else { String::new() };
        let told = match figure {
            Figure::Reached(m) => format!("prefix {m}{numbers}"),
            _ => format!("{}{numbers}", question.split(' ').next().unwrap()),
        };
        writeln!(self.script, "{question}").unwrap();
        self.tell(answer, told);
        answer
    }

    /// Another hand writes to the chart; the tables are no longer its own.
    fn poke(&mut self, r: &mut Random) {
        let (at, field) = damage(r, &mut self.chart);
        writeln!(self.script, "poke {at} {}", hex(&field)).unwrap();
        self.answers.push_str("poked\n");
        self.fresh &= field.is_empty();
    }

    fn call(&mut self, r: &mut Random, counts: &mut Counts) {
        if r.one_in(40) {
            self.poke(r);
        }
        let which = [0, 1, 1, 1, 1, 2, 2, 2, 2, 3, 3, 3, 3, 4, 4, 5, 5, 6, 6, 6, 7, 7, 7, 8, 9, 10, 11, 12][r.below(28)];
        let answer = match which {
            0 => self.open(r),
            1 => self.replace(r),
            2 => self.insert(r),
            3 => self.remove(r),
            4..=7 => self.read(r, which - 4),
            _ => self.figure(r, which - 8),
        };
        counts.calls[which] += 1;
        counts.compared += (answer.is_ok() && self.fresh) as u64;
        let number = answer.map_or_else(|refusal| {
            let placed = (3..=5).contains(&refusal.number);
            assert!((1..=10).contains(&refusal.number) && (placed || refusal.place == 0), "{refusal:?}");
            assert!(!placed || (refusal.place as usize) < count(&self.chart) + (which == 2) as usize, "{refusal:?}");
            assert!(refusal.number != 9 || which == 2, "{refusal:?}");
            assert!(refusal.number != 10 || which == 12, "{refusal:?}");
            refusal.number
        }, |()| 0);
        counts.refused[number as usize] += 1;
    }
}

/// A chart of 16,384 circles in a buffer with room: no more go in, any may go out, and one then goes in again.
fn at_the_limit(round: &mut Round) {
    let n = station::MOST;
    round.open_whole();
    let size = object_size(&round.chart);
    let circle = |round: &Round, place: usize| round.chart[HEADER + size * place..][..size].to_vec();
    for place in [0, n / 2, n - 1] {
        let (o, whole) = (circle(round, place), (round.records.len(), round.values.len()));
        for k in [place, n] {
            assert_eq!(round.edit(k, Some(&o), whole), Err(Refusal { number: 9, place: 0 }), "no room at the limit");
        }
        assert_eq!(round.edit(n + 1, Some(&o), whole), Err(Refusal { number: 8, place: 0 }), "8 comes before 9");
        assert_eq!(round.edit(place, Some(&o), (RECORD * n, VALUES * n)), Err(Refusal { number: 7, place: 0 }), "7 comes before both");
        assert_eq!(round.edit(place, None, whole), Ok(()));
        assert_eq!(round.edit(place, Some(&o), whole), Ok(()));
    }
}

fn fnv(bytes: &[u8]) -> u64 {
    bytes.iter().fold(0xCBF2_9CE4_8422_2325, |h, b| (h ^ *b as u64).wrapping_mul(0x0100_0000_01B3))
}

/// Calls for two players, in rounds of 20.
fn two_players(r: &mut Random, calls: u64, mut scratch: [Vec<f64>; 4]) {
    let (mut tally, mut rounds) = (players::Tally::default(), 0);
    while tally.calls.iter().sum::<u64>() < calls {
        let mut players = players::Players::new(r, scratch);
        (0..20).for_each(|_| players.call(r, &mut tally));
        scratch = players.round.scratch;
        rounds += 1;
    }
    let [open, edits, readings, figures] = tally.calls;
    println!("two players: {rounds} charts; open {open}, edits for both {edits}, readings {readings}, figures {figures}; carried out {}, refused by number {:?}", tally.refused[0], &tally.refused[1..]);
    println!("{} edits were refused by the second player alone; {} of those carried out were on both players' own tables", tally.second, tally.compared);
}

/// Rankings and joinings, ten a pack.
fn rankings(r: &mut Random, packs: u64) {
    let mut tally = packs::Tally::default();
    (0..packs).for_each(|_| packs::requests(r, &mut tally));
    let [rank, join] = tally.calls;
    println!("packs: {packs}; rank {rank}, join {join}, {} charts listed; carried out {}, refused by number {:?}", tally.charts, tally.refused[0], &tally.refused[1..]);
}

fn main() {
    let words: Vec<String> = std::env::args().skip(1).collect();
    let (seed, calls): (u64, u64) = (words[0].parse().unwrap(), words[1].parse().unwrap());
    let folder = words.get(2);
    let mut r = Random(seed.wrapping_mul(0x9E37_79B9_7F4A_7C15) | 1);
    let mut counts = Counts::default();
    let mut scratch: [Vec<f64>; 4] = std::array::from_fn(|_| vec![0.0; SCRATCH]);
    let (mut script, mut answers, mut rounds) = (String::new(), String::new(), 0);
    while counts.calls.iter().sum::<u64>() < calls {
        let mut round = Round::new(&mut r, scratch);
        folder.inspect(|folder| round.name(folder, rounds));
        (0..20).for_each(|_| round.call(&mut r, &mut counts));
        scratch = std::mem::take(&mut round.scratch);
        if folder.is_some() {
            let (calls, told) = round.told();
            script += &calls;
            answers += &told;
        }
        rounds += 1;
    }
    for (k, size) in LARGEST.into_iter().enumerate() {
        let mut largest = Round::of_circles(station::MOST, size, scratch);
        folder.inspect(|folder| largest.name(folder, rounds + k as u64));
        at_the_limit(&mut largest);
        scratch = std::mem::take(&mut largest.scratch);
        let (calls, told) = largest.told();
        script += &calls;
        answers += &told;
    }
    if let Some(folder) = folder {
        std::fs::write(format!("{folder}/scripts"), script).unwrap();
        std::fs::write(format!("{folder}/answers"), answers).unwrap();
    }
    counts.print(seed, rounds);
    two_players(&mut r, calls / 4, scratch);
    rankings(&mut r, calls / 2000);
}
