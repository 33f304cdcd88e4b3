//! Opens a chart, drags one of its objects a thousand times, puts one in and takes two out, and prints what a station would show; then edits it for two players, the second at
//! double and at half speed. client.c does the same.
//! Every call is guarded: it gives the same bits whatever rounding, flushing or traps a host has set.
mod station;
use station::{guarded, mods, object_size, Answer, AIM, COUNTS, MOST, RATINGS, RECORD, RHYTHM, SCRATCH, SETTINGS, TOTALS, VALUES};

struct Station {
    chart: Vec<u8>,
    records: Vec<f64>,
    values: Vec<f64>,
    scratch: [Vec<f64>; 4],
    objects: usize,
}

/// The second player: settings and tables of that player's own, as long as the first player's.
struct Second {
    settings: Vec<u8>,
    records: Vec<f64>,
    values: Vec<f64>,
}

fn print_answer(what: &str, answer: Answer) {
    match answer {
        Ok(()) => println!("{what}: carried out"),
        Err(r) => println!("{what}: refused {} {}", r.number, r.place),
    }
}

fn print_numbers(what: &str, numbers: &[f64]) {
    print!("{what}");
    for x in numbers {
        print!(" {:016X}", x.to_bits());
    }
    println!();
}

/// A figure's numbers, or its refusal.
fn print_figure(what: &str, answer: Answer, numbers: &[f64]) {
    match answer {
        Ok(()) => print_numbers(what, numbers),
        refused => print_answer(what, refused),
    }
}

fn lent(scratch: &mut [Vec<f64>; 4]) -> [&mut [f64]; 4] {
    scratch.each_mut().map(|s| &mut s[..])
}

fn count(chart: &[u8]) -> usize {
    chart.get(..4).map_or(0, |b| u32::from_le_bytes(b.try_into().unwrap()) as usize)
}

impl Station {
    fn show(&mut self, place: usize) {
        let (mut values, mut record, mut totals) = ([0.0; VALUES], [0.0; RECORD], [0.0; TOTALS]);
        let (mut parts, mut rhythm, mut counts, mut ratings) = ([0.0; AIM], [0.0; RHYTHM], [0.0; COUNTS], [0.0; RATINGS]);
        if guarded(|| station::read_values(&self.chart, &self.values, place, &mut values)).is_ok() {
            print_numbers("values", &values);
        }
        if guarded(|| station::read_record(&self.chart, &self.records, place, &mut record)).is_ok() {
            print_numbers("record", &record);
        }
        if guarded(|| station::read_aim_parts(&self.chart, &self.records, place, &mut parts)).is_ok() {
            print_numbers("parts", &parts);
        }
        if guarded(|| station::read_rhythm(&self.chart, &self.records, place, &mut rhythm)).is_ok() {
            print_numbers("rhythm", &rhythm);
        }
        print_figure("totals", guarded(|| station::totals(&self.chart, &self.values, lent(&mut self.scratch), &mut totals)), &totals);
        print_figure("counts", guarded(|| station::counts(&self.chart, &self.values, lent(&mut self.scratch), &mut counts)), &counts);
        print_figure("prefix", guarded(|| station::totals_to(&self.chart, &self.values, place, lent(&mut self.scratch), &mut totals)), &totals);
        let numbers = [9.5, 8.0, 1.14, f64::INFINITY, 2.0]; // attraction strength is not given, and not read
        let (word, given) = (mods::HIDDEN | mods::FLASHLIGHT, mods::START_SCALE);
        print_figure("ratings", guarded(|| station::ratings(&self.chart, &self.values, word, given, &numbers, lent(&mut self.scratch), &mut ratings)), &ratings);
    }

    /// The totals while playing, for all numbers of objects; then a list one entry short (7), one object too many (8) and a base multiplier that is not finite (10).
    fn show_playing(&mut self) {
        let n = count(&self.chart);
        let (mut list, mut out) = (vec![0.0; TOTALS * (n + 1)], [0.0; TOTALS]);
        for length in [list.len(), list.len() - 1] {
            let answer = guarded(|| station::totals_while_playing(&self.chart, &self.values, &mut list[..length], lent(&mut self.scratch)));
            print_figure("prefixes", answer, &list);
        }
        print_figure("prefix", guarded(|| station::totals_to(&self.chart, &self.values, n + 1, lent(&mut self.scratch), &mut out)), &out);
        let numbers = [9.5, 8.0, f64::INFINITY, 0.0, 0.0];
        print_figure("ratings", guarded(|| station::ratings(&self.chart, &self.values, 0, 0, &numbers, lent(&mut self.scratch), &mut out)), &out);
    }

    fn object(&self, place: usize) -> Vec<u8> {
        let size = object_size(&self.chart);
        self.chart[80 + size * place..][..size].to_vec()
    }

    /// Moves the object to and fro. Every tenth step drops it outside the field (3), every seventeenth past the last place (8), every
    /// twenty-third is cut short (3 at its place).
    fn drag(&mut self, place: usize) {
        let mut object = self.object(place);
        let mut answers = [0; 10];
        for step in 0..1000usize {
            let to_and_fro = if step % 40 < 20 { step % 20 } else { 20 - step % 20 };
            let x = if step % 10 == 9 { 200000.0 } else { 100.0 + to_and_fro as f32 };
            object[16..20].copy_from_slice(&x.to_le_bytes());
            let to = if step % 17 == 16 { self.objects } else { place };
            let length = if step % 23 == 22 { 40 } else { object.len() };
            let answer = guarded(|| station::replace(&mut self.chart, to, &object[..length], &mut self.records, &mut self.values));
            answers[answer.map_or_else(|r| r.number as usize, |()| 0)] += 1;
            if step % 250 == 0 {
                self.show(place);
            }
        }
        for (n, times) in answers.iter().enumerate().filter(|&(_, &times)| times > 0) {
            println!("{}: {times} times", if n > 0 { format!("refused {n}") } else { "carried out".to_string() });
        }
    }

    fn insert(&mut self, place: usize, object: &[u8]) {
        print_answer("insertion", guarded(|| station::insert(&mut self.chart, place, object, &mut self.records, &mut self.values)));
    }

    fn take_out(&mut self, place: usize) {
        print_answer("removal", guarded(|| station::remove(&mut self.chart, place, &mut self.records, &mut self.values)));
    }

    /// Puts a copy of the object in before it; a second finds no room for another (9). Then the first object of the chart goes out, the copy, and one past the last (8).
    fn put_in_and_take_out(&mut self, place: usize) {
        let object = self.object(place);
        self.insert(place, &object);
        self.show(place);
        self.insert(place, &object);
        self.take_out(0);
        self.show(place);
        self.take_out(place - 1);
        self.take_out(self.objects - 1);
        self.show(place - 1);
    }

    /// The header's settings with its clock rate times a power of two.
    fn settings(&self, speed: f64) -> Vec<u8> {
        let mut settings = self.chart[32..80].to_vec();
        let clock = f64::from_le_bytes(settings[..8].try_into().unwrap());
        settings[..8].copy_from_slice(&(clock * speed).to_le_bytes());
        settings
    }

    fn open_second(&self, p: &mut Second, length: usize) {
        print_answer("opening", guarded(|| station::open_as(&self.chart, &p.settings[..length], &mut p.records, &mut p.values)));
    }

    fn show_second(&mut self, p: &Second, place: usize) {
        let (mut values, mut record, mut totals) = ([0.0; VALUES], [0.0; RECORD], [0.0; TOTALS]);
        let (mut parts, mut rhythm, mut counts, mut ratings) = ([0.0; AIM], [0.0; RHYTHM], [0.0; COUNTS], [0.0; RATINGS]);
        let t = &p.settings;
        if guarded(|| station::read_values_as(&self.chart, t, &p.values, place, &mut values)).is_ok() {
            print_numbers("values", &values);
        }
        if guarded(|| station::read_record_as(&self.chart, t, &p.records, place, &mut record)).is_ok() {
            print_numbers("record", &record);
        }
        if guarded(|| station::read_aim_parts_as(&self.chart, t, &p.records, place, &mut parts)).is_ok() {
            print_numbers("parts", &parts);
        }
        if guarded(|| station::read_rhythm_as(&self.chart, t, &p.records, place, &mut rhythm)).is_ok() {
            print_numbers("rhythm", &rhythm);
        }
        print_figure("totals", guarded(|| station::totals_as(&self.chart, t, &p.values, lent(&mut self.scratch), &mut totals)), &totals);
        print_figure("counts", guarded(|| station::counts_as(&self.chart, t, &p.values, lent(&mut self.scratch), &mut counts)), &counts);
        print_figure("prefix", guarded(|| station::totals_to_as(&self.chart, t, &p.values, place, lent(&mut self.scratch), &mut totals)), &totals);
        let numbers = [9.5, 8.0, 1.14, f64::INFINITY, 2.0];
        let (word, given) = (mods::HIDDEN | mods::FLASHLIGHT, mods::START_SCALE);
        print_figure("ratings", guarded(|| station::ratings_as(&self.chart, t, &p.values, word, given, &numbers, lent(&mut self.scratch), &mut ratings)), &ratings);
    }

    /// The second player's totals while playing.
    fn show_second_playing(&mut self, p: &Second) {
        let mut list = vec![0.0; TOTALS * (count(&self.chart) + 1)];
        let answer = guarded(|| station::totals_while_playing_as(&self.chart, &p.settings, &p.values, &mut list, lent(&mut self.scratch)));
        print_figure("prefixes", answer, &list);
    }

    fn replace_both(&mut self, p: &mut Second, place: usize, object: &[u8]) {
        let answer = guarded(|| {
            station::replace_both(&mut self.chart, &p.settings, place, object, &mut self.records, &mut self.values, &mut p.records, &mut p.values)
        });
        print_answer("replacement", answer);
    }

    /// Puts a circle at the last place for both players that starts so many milliseconds in, as the first player plays.
    fn put_late(&mut self, p: &mut Second, milliseconds: f64) {
        let mut object = vec![0; object_size(&self.chart)];
        let time = milliseconds * f64::from_le_bytes(self.chart[32..40].try_into().unwrap());
        object[..8].copy_from_slice(&time.to_le_bytes());
        object[8..16].copy_from_slice(&time.to_le_bytes());
        self.replace_both(p, count(&self.chart) - 1, &object);
    }

    fn insert_both(&mut self, p: &mut Second, place: usize, object: &[u8]) {
        let answer = guarded(|| {
            station::insert_both(&mut self.chart, &p.settings, place, object, &mut self.records, &mut self.values, &mut p.records, &mut p.values)
        });
        print_answer("insertion", answer);
    }

    fn remove_both(&mut self, p: &mut Second, place: usize) {
        let answer = guarded(|| {
            station::remove_both(&mut self.chart, &p.settings, place, &mut self.records, &mut self.values, &mut p.records, &mut p.values)
        });
        print_answer("removal", answer);
    }

    /// Opens for a second player, whose settings of 47 bytes are refused (2), and edits for both: an object moved, a copy of it put in, the first object taken out. A circle
    /// 4,000 seconds in is too late at normal speed alone (6), and one 2,000 seconds in at half speed alone, for which the second player is opened anew.
    fn two_players(&mut self, place: usize) {
        let mut p = Second { settings: self.settings(2.0), records: vec![0.0; self.records.len()], values: vec![0.0; self.values.len()] };
        println!("second player at double speed");
        self.open_second(&mut p, SETTINGS - 1);
        self.open_second(&mut p, SETTINGS);
        self.show_second(&p, place);
        let mut object = self.object(place);
        object[16..20].copy_from_slice(&300f32.to_le_bytes());
        self.replace_both(&mut p, place, &object);
        self.insert_both(&mut p, place, &object);
        self.remove_both(&mut p, 0);
        self.put_late(&mut p, 4e6);
        self.show(place);
        self.show_second(&p, place);
        println!("second player at half speed");
        p.settings = self.settings(0.5);
        self.open_second(&mut p, SETTINGS);
        self.put_late(&mut p, 2e6);
        self.show(place);
        self.show_second(&p, place);
        self.show_second_playing(&p);
    }
}

fn main() {
    let name = std::env::args().nth(1).expect("usage: client CHART");
    let mut chart = std::fs::read(name).expect("the chart can be read");
    chart.resize(chart.len() + object_size(&chart), 0); // a buffer with room for one object more
    let n = count(&chart);
    let objects = if n <= MOST { n } else { 0 };
    let mut s = Station {
        chart,
        records: vec![0.0; RECORD * (objects + 2)],
        values: vec![0.0; VALUES * (objects + 2)],
        scratch: std::array::from_fn(|_| vec![0.0; SCRATCH]),
        objects,
    };
    println!("objects {objects}");
    let answer = guarded(|| station::open(&s.chart, &mut s.records, &mut s.values));
    print_answer("opening", answer);
    if answer.is_ok() && objects > 1 {
        s.show(objects / 2);
        s.show_playing();
        s.drag(objects / 2);
        s.show(objects / 2);
        s.put_in_and_take_out(objects / 2);
        s.show_playing();
        s.two_players((objects - 1) / 2);
    }
}
