//! The fuzzer's packs: charts of every kind one behind the other, wild offsets, short tables and scratch, numbers that are not finite. What ranking a list answers and leaves must be what
//! opening and rating each listed chart by itself gives, put in order by the rules' comparison.
use crate::station::{self, Answer, Refusal, NUMBERS, RATINGS, RECORD, SCRATCH, TOTALS, VALUES};
use crate::{any_chart, count, same, Random};
use std::cmp::Ordering;

/// Charts that a list has at most, and objects of the tables.
const MOST_CHARTS: usize = 256;
const ENTRIES: usize = 64;

#[derive(Default)]
pub struct Tally {
    pub calls: [u64; 2], // rankings, joinings
    pub refused: [u64; 11],
    pub charts: u64, // charts in the lists that were ranked
}

/// What comes with a call, and what it is lent.
struct Lent {
    mods: u32,
    given: u32,
    numbers: Vec<f64>,
    records: Vec<f64>,
    values: Vec<f64>,
    scratch: [Vec<f64>; 4],
}

impl Lent {
    fn any(r: &mut Random) -> Self {
        let mut numbers: Vec<f64> = (0..NUMBERS).map(|_| r.below(1200) as f64 / 100.0).collect();
        match r.below(12) {
            0 => numbers[r.below(NUMBERS)] = r.wild(),
            1 => numbers[2] = -1.0, // a base multiplier below 0: stars that are NaN
            2 => numbers.truncate(r.below(NUMBERS)),
            _ => {}
        }
        let mut length = |whole: usize| if r.one_in(15) { r.below(whole) } else { whole };
        let (records, values) = (vec![7.5; length(RECORD * ENTRIES)], vec![7.5; length(VALUES * ENTRIES)]);
        let scratch = std::array::from_fn(|_| vec![7.5; if r.one_in(40) { SCRATCH - 1 } else { SCRATCH + r.below(3) }]);
        Lent { mods: r.word() as u32, given: r.word() as u32, numbers, records, values, scratch }
    }

    fn same(&self, other: &Lent) -> bool {
        let scratch = self.scratch.iter().zip(&other.scratch).all(|(a, b)| same(a, b));
        same(&self.records, &other.records) && same(&self.values, &other.values) && scratch
    }

    fn cleared(&mut self) {
        self.scratch.iter_mut().for_each(|s| s.fill(0.0));
    }
}

impl Clone for Lent {
    fn clone(&self) -> Self {
        Lent { numbers: self.numbers.clone(), records: self.records.clone(), values: self.values.clone(), scratch: self.scratch.clone(), ..*self }
    }
}

/// The chart at an offset, if it lies in the pack.
fn chart_at(pack: &[u8], offset: u64) -> Option<&[u8]> {
    let rest = pack.get(usize::try_from(offset).ok()?..)?;
    let length = u32::from_le_bytes(rest.get(..80)?[24..28].try_into().unwrap());
    rest.get(..length as usize)
}

/// The chart at an offset opened into the tables and rated: its stars, and three of its totals.
fn rated(pack: &[u8], offset: u64, lent: &mut Lent) -> Result<[f64; 4], Refusal> {
    let chart = chart_at(pack, offset).ok_or(Refusal { number: 1, place: 0 })?;
    station::open(chart, &mut lent.records, &mut lent.values)?;
    let (mut ratings, mut totals) = ([0.0; RATINGS], [0.0; TOTALS]);
    let mut four = lent.scratch.clone();
    station::ratings(chart, &lent.values, lent.mods, lent.given, &lent.numbers, four.each_mut().map(|s| &mut s[..]), &mut ratings)?;
    station::totals(chart, &lent.values, four.each_mut().map(|s| &mut s[..]), &mut totals)?;
    Ok([ratings[3], totals[0], totals[2], totals[3]])
}

/// A NaN is below every number, NaNs are alike, and so are both zeros.
fn by_number(a: f64, b: f64) -> Ordering {
    a.partial_cmp(&b).unwrap_or_else(|| b.is_nan().cmp(&a.is_nan()))
}

/// What ranking a list answers, and the list and what is lent as it leaves them.
fn expected(pack: &[u8], list: &[u64], lent: &Lent) -> (Answer, Vec<u64>, Lent) {
    if list.len() > MOST_CHARTS {
        return (Err(Refusal { number: 8, place: 0 }), list.to_vec(), lent.clone());
    }
    let (mut after, mut keys) = (lent.clone(), vec![]);
    for &offset in list {
        match rated(pack, offset, &mut after) {
            Ok(key) => keys.push((key, offset)),
            Err(refusal) => return (Err(refusal), list.to_vec(), lent.clone()),
        }
    }
    keys.sort_by(|(a, i), (b, j)| {
        let (one, other) = (chart_at(pack, *i).unwrap(), chart_at(pack, *j).unwrap());
        let numbers = a.iter().zip(b).map(|(x, y)| by_number(*y, *x)).find(|o| o.is_ne());
        numbers.unwrap_or_else(|| other.len().cmp(&one.len()).then_with(|| other.cmp(one)).then(i.cmp(j)))
    });
    after.cleared();
    (Ok(()), keys.into_iter().map(|(_, offset)| offset).collect(), after)
}

/// Ranks a list, or joins two; the answer, the list and what is lent must be the expected ones.
fn ranked(pack: &[u8], list: &[u64], first: Option<usize>, lent: &Lent) -> (Answer, Vec<u64>) {
    let (mut listed, mut after) = (list.to_vec(), lent.clone());
    let Lent { mods, given, numbers, records, values, scratch } = &mut after;
    let four = scratch.each_mut().map(|s| &mut s[..]);
    let answer = match first {
        Some(first) => station::join(pack, &mut listed, first, *mods, *given, numbers, records, values, four),
        None => station::rank(pack, &mut listed, *mods, *given, numbers, records, values, four),
    };
    let (told, order, left) = expected(pack, list, lent);
    assert_eq!(answer, told, "the first chart that is refused, or none");
    assert_eq!(listed, order, "the listing, or the list as it was");
    assert!(after.same(&left), "tables and scratch as the charts leave them, or as they were");
    (answer, listed)
}

/// A pack of a few charts with bytes between them, and where they begin.
fn any_pack(r: &mut Random) -> (Vec<u8>, Vec<u64>) {
    let (mut pack, mut offsets): (Vec<u8>, Vec<u64>) = (vec![], vec![]);
    for _ in 0..1 + r.below(6) {
        let again = !offsets.is_empty() && r.one_in(4);
        let chart = if again { chart_at(&pack, offsets[r.below(offsets.len())]).unwrap_or(&[]).to_vec() } else { any_chart(r) };
        if count(&chart) <= ENTRIES || r.one_in(8) {
            offsets.push(pack.len() as u64);
            pack.extend(chart);
        }
        pack.extend((0..[0, 0, 1, 90][r.below(4)]).map(|_| r.word() as u8));
    }
    (pack, offsets)
}

/// A list of offsets: most often of charts that open, some wild, some longer than a list may be.
fn any_list(r: &mut Random, pack: &[u8], offsets: &[u64]) -> Vec<u64> {
    let opens = |o: &u64| chart_at(pack, *o).is_some_and(|c| station::open(c, &mut vec![0.0; RECORD * ENTRIES], &mut vec![0.0; VALUES * ENTRIES]).is_ok());
    let good: Vec<u64> = offsets.iter().copied().filter(opens).collect();
    let length = if r.one_in(60) { 255 + r.below(4) } else { r.below(9) };
    let wild = r.one_in(4);
    let mut any = || match r.below(40) {
        0 if wild => [u64::MAX, pack.len() as u64, 1 << 32, 1][r.below(4)],
        1..=3 if wild && !offsets.is_empty() => offsets[r.below(offsets.len())],
        _ if good.is_empty() => r.below(pack.len() + 1) as u64,
        _ => good[r.below(good.len())],
    };
    (0..length).map(|_| any()).collect()
}

/// Ten rankings and joinings over a pack; halves that were ranked alone are joined too.
pub fn requests(r: &mut Random, tally: &mut Tally) {
    let (pack, offsets) = any_pack(r);
    for _ in 0..10 {
        let (list, lent) = (any_list(r, &pack, &offsets), Lent::any(r));
        let join = r.one_in(2);
        let (answer, _) = if join {
            let first = [r.below(list.len() + 2), usize::MAX][r.one_in(9) as usize];
            let (a, b) = list.split_at(first.min(list.len()));
            let halves = if r.one_in(2) { [a, b].map(|half| ranked(&pack, half, None, &lent).1).concat() } else { list };
            tally.charts += halves.len() as u64;
            ranked(&pack, &halves, Some(first), &lent)
        } else {
            tally.charts += list.len() as u64;
            ranked(&pack, &list, None, &lent)
        };
        tally.calls[join as usize] += 1;
        tally.refused[answer.map_or_else(|refusal| refusal.number as usize, |()| 0)] += 1;
    }
}
