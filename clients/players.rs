//! The fuzzer's second player: wild settings, short tables and wild places at every call for the second player and at every edit for both. What each answers and leaves must be what
//! the call for one player does on a chart with these settings in its header.
use crate::station::{self, Answer, Refusal, AIM, RECORD, RHYTHM, SCRATCH, SETTINGS, VALUES};
use crate::{count, put, same, same_rows, Figure, Random, Read, Round};

type ReadAs = fn(&[u8], &[u8], &[f64], usize, &mut [f64]) -> Answer;

/// A reading for the second player and for one, the numbers of an entry of its table and those of its answer.
const READINGS: [(ReadAs, Read, usize, usize); 4] = [
    (station::read_record_as, station::read_record, RECORD, RECORD),
    (station::read_values_as, station::read_values, VALUES, VALUES),
    (station::read_aim_parts_as, station::read_aim_parts, RECORD, AIM),
    (station::read_rhythm_as, station::read_rhythm, RECORD, RHYTHM),
];

#[derive(Clone, Copy)]
enum Edit {
    Replace,
    Insert,
    Remove,
}

#[derive(Default)]
pub struct Tally {
    pub calls: [u64; 4], // openings, edits for both, readings, figures
    pub refused: [u64; 11],
    pub second: u64,   // edits that the second player alone refused
    pub compared: u64, // edits carried out on the own tables of both
}

pub struct Players {
    pub round: Round, // the chart, the first player's tables, scratch
    settings: Vec<u8>,
    records: Vec<f64>,
    values: Vec<f64>,
    opened: Option<Vec<u8>>, // the settings under which the second player's tables are those of the chart
}

/// The chart with the settings in its header; zeros stand for settings of another length.
fn under(chart: &[u8], settings: &[u8]) -> Vec<u8> {
    let (mut seen, zeros) = (chart.to_vec(), [0; SETTINGS]);
    put(&mut seen, 32, if settings.len() == SETTINGS { settings } else { &zeros });
    seen
}

/// 1 of that chart, or 2 for settings of another length.
fn sized(seen: &[u8], settings: &[u8]) -> Answer {
    match station::read_record(seen, &[], 0, &mut [0.0; RECORD]) {
        Err(refusal) if refusal.number == 1 => Err(refusal),
        _ if settings.len() != SETTINGS => Err(Refusal { number: 2, place: 0 }),
        _ => Ok(()),
    }
}

/// Settings: most often the header's with a field of them changed, some of another length.
fn any_settings(r: &mut Random, chart: &[u8]) -> Vec<u8> {
    let mut t = chart.get(32..32 + SETTINGS).map_or(vec![0; SETTINGS], |t| t.to_vec());
    let clock = [0.25f64, 0.5, 0.75, 1.0, 1.5, 2.0, 3.0, 4.0][r.below(8)];
    put(&mut t, 0, &clock.to_le_bytes());
    match r.below(14) {
        0 => put(&mut t, 8 * r.below(5), &r.wild().to_le_bytes()),
        1 => put(&mut t, 40, &(r.wild() as f32).to_le_bytes()),
        2 => put(&mut t, 44, &(r.word() as u32).to_le_bytes()),
        3 => put(&mut t, 8 + 8 * r.below(4), &(1.0 + r.below(400) as f64).to_le_bytes()),
        4 => put(&mut t, 44, &(r.below(4) as u32).to_le_bytes()),
        5 => t.resize([0, 1, 44, 47, 49, 56, 80, r.below(200)][r.below(8)], 0x40),
        _ => {}
    }
    t
}

fn edit_one(edit: Edit, chart: &mut [u8], place: usize, o: &[u8], records: &mut [f64], values: &mut [f64]) -> Answer {
    match edit {
        Edit::Replace => station::replace(chart, place, o, records, values),
        Edit::Insert => station::insert(chart, place, o, records, values),
        Edit::Remove => station::remove(chart, place, records, values),
    }
}

impl Players {
    /// A chart with wild tables; most are opened for both players.
    pub fn new(r: &mut Random, scratch: [Vec<f64>; 4]) -> Self {
        let round = Round::new(r, scratch);
        let settings = any_settings(r, &round.chart);
        let (records, values) = (round.records.iter().rev().copied().collect(), round.values.iter().rev().copied().collect());
        let mut players = Players { round, settings, records, values, opened: None };
        if !r.one_in(4) {
            players.round.open_whole();
            let _ = players.open(r);
        }
        players
    }

    fn open(&mut self, r: &mut Random) -> Answer {
        let (rl, vl) = (self.round.length(r, self.records.len(), RECORD), self.round.length(r, self.values.len(), VALUES));
        let (chart, seen) = (self.round.chart.clone(), under(&self.round.chart, &self.settings));
        let (mut records, mut values) = (self.records.clone(), self.values.clone());
        let expected = sized(&seen, &self.settings).and_then(|()| station::open(&seen, &mut records[..rl], &mut values[..vl]));
        let answer = station::open_as(&self.round.chart, &self.settings, &mut self.records[..rl], &mut self.values[..vl]);
        assert_eq!(answer, expected, "opening for the second player");
        assert!(same(&records, &self.records) && same(&values, &self.values), "the second player's tables as one player's");
        assert!(chart == self.round.chart, "opening leaves the chart");
        if answer.is_ok() {
            self.opened = Some(self.settings.clone());
        }
        answer
    }

    fn read(&mut self, r: &mut Random) -> Answer {
        let (read_as, read, entry, w) = READINGS[r.below(4)];
        let table = if entry == RECORD { &self.records } else { &self.values };
        let (place, length) = (self.round.place(r), self.round.length(r, table.len(), entry));
        let room = if r.one_in(8) { r.below(w) } else { w + r.below(3) };
        let mut out: Vec<f64> = (0..room).map(|_| r.wild()).collect();
        let (mut other, seen) = (out.clone(), under(&self.round.chart, &self.settings));
        let expected = sized(&seen, &self.settings).and_then(|()| read(&seen, &table[..length], place, &mut other));
        let answer = read_as(&self.round.chart, &self.settings, &table[..length], place, &mut out);
        assert_eq!(answer, expected, "a reading for the second player");
        assert!(same(&out, &other), "what is read for the second player");
        answer
    }

    fn figure(&mut self, r: &mut Random) -> Answer {
        let which = r.below(5);
        let figure = self.round.asked(r, which);
        let vl = self.round.length(r, self.values.len(), VALUES);
        let lengths: [usize; 4] = std::array::from_fn(|_| if r.one_in(12) { r.below(SCRATCH) } else { SCRATCH });
        let (_, room) = self.round.room(r, &figure);
        let mut out: Vec<f64> = (0..room).map(|_| r.wild()).collect();
        let (mut other, seen) = (out.clone(), under(&self.round.chart, &self.settings));
        let mut scratch = self.round.scratch.clone();
        let (table, chart, t) = (&self.values[..vl], &self.round.chart, &self.settings);
        let lent = |scratch: &mut [Vec<f64>; 4], call: &mut dyn FnMut([&mut [f64]; 4]) -> Answer| {
            let mut k = 0;
            call(scratch.each_mut().map(|s| { k += 1; &mut s[..lengths[k - 1]] }))
        };
        let expected = sized(&seen, t).and_then(|()| lent(&mut scratch, &mut |s| match &figure {
            Figure::Totals => station::totals(&seen, table, s, &mut other),
            Figure::Counts => station::counts(&seen, table, s, &mut other),
            Figure::Reached(m) => station::totals_to(&seen, table, *m, s, &mut other),
            Figure::Playing => station::totals_while_playing(&seen, table, &mut other, s),
            Figure::Ratings(word, given, numbers) => station::ratings(&seen, table, *word, *given, numbers, s, &mut other),
        }));
        let answer = lent(&mut self.round.scratch, &mut |s| match &figure {
            Figure::Totals => station::totals_as(chart, t, table, s, &mut out),
            Figure::Counts => station::counts_as(chart, t, table, s, &mut out),
            Figure::Reached(m) => station::totals_to_as(chart, t, table, *m, s, &mut out),
            Figure::Playing => station::totals_while_playing_as(chart, t, table, &mut out, s),
            Figure::Ratings(word, given, numbers) => station::ratings_as(chart, t, table, *word, *given, numbers, s, &mut out),
        });
        assert_eq!(answer, expected, "a figure for the second player");
        assert!(same(&out, &other) && scratch.iter().zip(&self.round.scratch).all(|(a, b)| same(a, b)), "its numbers and its scratch");
        answer
    }

    /// Both players' tables are those of fresh openings.
    fn check_fresh(&self) {
        self.round.check_fresh();
        let (seen, n) = (under(&self.round.chart, &self.settings), count(&self.round.chart));
        let (mut records, mut values) = (vec![7.0; RECORD * n], vec![7.0; VALUES * n]);
        assert_eq!(station::open(&seen, &mut records, &mut values), Ok(()), "a chart that was accepted opens for the second player");
        assert!(same_rows(RECORD, &records, &self.records, 1, n), "the second player's records as a fresh opening's");
        assert!(same_rows(VALUES, &values, &self.values, 1, n), "the second player's values as a fresh opening's");
    }

    fn edit(&mut self, r: &mut Random, tally: &mut Tally) -> Answer {
        let edit = [Edit::Replace, Edit::Insert, Edit::Remove][r.below(3)];
        let place = self.round.place(r);
        let o = self.round.new_object(r, place);
        let ((rl, vl), t) = (self.round.lengths(r), &self.settings);
        let (sr, sv) = (self.round.length(r, self.records.len(), RECORD), self.round.length(r, self.values.len(), VALUES));
        let (mut chart, mut seen) = (self.round.chart.clone(), under(&self.round.chart, t));
        let (mut records, mut values) = (self.round.records.clone(), self.round.values.clone());
        let (mut second_records, mut second_values) = (self.records.clone(), self.values.clone());
        let first = edit_one(edit, &mut chart, place, &o, &mut records[..rl], &mut values[..vl]);
        let second = sized(&seen, t).and_then(|()| edit_one(edit, &mut seen, place, &o, &mut second_records[..sr], &mut second_values[..sv]));
        let (c, x, y) = (&mut self.round.chart, &mut self.round.records[..rl], &mut self.round.values[..vl]);
        let before = (c.clone(), x.to_vec(), y.to_vec(), self.records.clone(), self.values.clone());
        let (p, q) = (&mut self.records[..sr], &mut self.values[..sv]);
        let answer = match edit {
            Edit::Replace => station::replace_both(c, t, place, &o, x, y, p, q),
            Edit::Insert => station::insert_both(c, t, place, &o, x, y, p, q),
            Edit::Remove => station::remove_both(c, t, place, x, y, p, q),
        };
        assert_eq!(answer, first.and(second), "an edit for both names the first player's refusal, or the second's");
        if answer.is_ok() {
            assert!(*c == chart && same(x, &records[..rl]) && same(y, &values[..vl]), "the chart and the first player's tables as one player's");
            assert!(under(c, t) == seen && same(&self.records, &second_records) && same(&self.values, &second_values), "and the second player's");
        } else {
            assert!(*c == before.0 && same(x, &before.1) && same(y, &before.2), "a refusal leaves the chart and the first player's tables");
            assert!(same(&self.records, &before.3) && same(&self.values, &before.4), "and the second player's");
        }
        tally.second += (first.is_ok() && answer.is_err()) as u64;
        if answer.is_ok() {
            let own = self.round.fresh && self.opened.as_ref() == Some(&self.settings);
            tally.compared += own as u64;
            if own {
                self.check_fresh();
            } else if self.opened.as_ref() != Some(&self.settings) {
                self.opened = None;
            }
        }
        answer
    }

    /// One call, and before some of them other settings, an opening or an edit for the first player alone, or another hand that writes to the chart.
    pub fn call(&mut self, r: &mut Random, tally: &mut Tally) {
        if r.one_in(20) {
            self.settings = any_settings(r, &self.round.chart);
        }
        match r.below(24) {
            0 => drop(self.round.open(r)),
            1 if self.round.replace(r).is_ok() => self.opened = None,
            2 if r.one_in(3) => {
                self.round.poke(r);
                self.opened = None;
            }
            _ => {}
        }
        let which = [0, 0, 1, 1, 1, 1, 1, 2, 2, 3][r.below(10)];
        let answer = match which {
            0 => self.open(r),
            1 => self.edit(r, tally),
            2 => self.read(r),
            _ => self.figure(r),
        };
        tally.calls[which] += 1;
        tally.refused[answer.map_or_else(|refusal| refusal.number as usize, |()| 0)] += 1;
    }
}
