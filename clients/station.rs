//! The library's calls for a program in Rust: what include/station.h says of them in C holds here too.
#![allow(dead_code)]

/// Bytes of an object in a chart without stated lengths, and in one with them.
pub const OBJECT: usize = 56;
pub const STATED_OBJECT: usize = 64;
pub const MOST: usize = 16384;
/// Bytes of a player's settings; the first player's are those of the header, from byte 32 on.
pub const SETTINGS: usize = 48;
pub const RECORD: usize = 16;
pub const VALUES: usize = 5;
pub const AIM: usize = 18;
pub const RHYTHM: usize = 2;
pub const TOTALS: usize = 4;
pub const COUNTS: usize = 7;
pub const RATINGS: usize = 4;
pub const NUMBERS: usize = 5;
pub const SCRATCH: usize = 8192;

/// Bits of the word of mods that comes with a call for ratings; the last two are of the word that says which numbers are given.
pub mod mods {
    pub const AUTOPILOT: u32 = 1;
    pub const RELAX: u32 = 1 << 1;
    pub const TOUCH_DEVICE: u32 = 1 << 2;
    pub const HIDDEN: u32 = 1 << 3;
    pub const FLASHLIGHT: u32 = 1 << 4;
    pub const TRACEABLE: u32 = 1 << 5;
    pub const FADE_ONLY: u32 = 1 << 6;
    pub const ATTRACTION: u32 = 1;
    pub const START_SCALE: u32 = 1 << 1;
}

mod library {
    extern "C" {
        pub fn difficulty_open(c: *const u8, cl: usize, r: *mut f64, rl: usize, v: *mut f64, vl: usize) -> u64;
        pub fn difficulty_replace(c: *mut u8, cl: usize, place: usize, o: *const u8, ol: usize, r: *mut f64, rl: usize, v: *mut f64, vl: usize) -> u64;
        pub fn difficulty_insert(c: *mut u8, cl: usize, place: usize, o: *const u8, ol: usize, r: *mut f64, rl: usize, v: *mut f64, vl: usize) -> u64;
        pub fn difficulty_remove(c: *mut u8, cl: usize, place: usize, r: *mut f64, rl: usize, v: *mut f64, vl: usize) -> u64;
        pub fn difficulty_read_record(c: *const u8, cl: usize, r: *const f64, rl: usize, place: usize, out: *mut f64, ol: usize) -> u64;
        pub fn difficulty_read_values(c: *const u8, cl: usize, v: *const f64, vl: usize, place: usize, out: *mut f64, ol: usize) -> u64;
        pub fn difficulty_read_aim_parts(c: *const u8, cl: usize, r: *const f64, rl: usize, place: usize, out: *mut f64, ol: usize) -> u64;
        pub fn difficulty_read_rhythm(c: *const u8, cl: usize, r: *const f64, rl: usize, place: usize, out: *mut f64, ol: usize) -> u64;
        pub fn difficulty_totals(
            c: *const u8, cl: usize, v: *const f64, vl: usize, aim: *mut f64, al: usize, still: *mut f64, nl: usize,
            speed: *mut f64, sl: usize, light: *mut f64, ll: usize, out: *mut f64, ol: usize,
        ) -> u64;
        pub fn difficulty_counts(
            c: *const u8, cl: usize, v: *const f64, vl: usize, aim: *mut f64, al: usize, still: *mut f64, nl: usize,
            speed: *mut f64, sl: usize, light: *mut f64, ll: usize, out: *mut f64, ol: usize,
        ) -> u64;
        pub fn difficulty_totals_to(
            c: *const u8, cl: usize, v: *const f64, vl: usize, m: usize, aim: *mut f64, al: usize, still: *mut f64, nl: usize,
            speed: *mut f64, sl: usize, light: *mut f64, ll: usize, out: *mut f64, ol: usize,
        ) -> u64;
        pub fn difficulty_totals_while_playing(
            c: *const u8, cl: usize, v: *const f64, vl: usize, list: *mut f64, tl: usize, aim: *mut f64, al: usize, still: *mut f64, nl: usize,
            speed: *mut f64, sl: usize, light: *mut f64, ll: usize,
        ) -> u64;
        pub fn difficulty_ratings(
            c: *const u8, cl: usize, v: *const f64, vl: usize, mods: u32, given: u32, numbers: *const f64, bl: usize, aim: *mut f64, al: usize, still: *mut f64, nl: usize,
            speed: *mut f64, sl: usize, light: *mut f64, ll: usize, out: *mut f64, ol: usize,
        ) -> u64;
        pub fn difficulty_open_as(c: *const u8, cl: usize, s: *const u8, tl: usize, r: *mut f64, rl: usize, v: *mut f64, vl: usize) -> u64;
        pub fn difficulty_read_record_as(c: *const u8, cl: usize, s: *const u8, tl: usize, r: *const f64, rl: usize, place: usize, out: *mut f64, ol: usize) -> u64;
        pub fn difficulty_read_values_as(c: *const u8, cl: usize, s: *const u8, tl: usize, v: *const f64, vl: usize, place: usize, out: *mut f64, ol: usize) -> u64;
        pub fn difficulty_read_aim_parts_as(c: *const u8, cl: usize, s: *const u8, tl: usize, r: *const f64, rl: usize, place: usize, out: *mut f64, ol: usize) -> u64;
        pub fn difficulty_read_rhythm_as(c: *const u8, cl: usize, s: *const u8, tl: usize, r: *const f64, rl: usize, place: usize, out: *mut f64, ol: usize) -> u64;
        pub fn difficulty_totals_as(
            c: *const u8, cl: usize, s: *const u8, tl: usize, v: *const f64, vl: usize, aim: *mut f64, al: usize, still: *mut f64, nl: usize,
            speed: *mut f64, pl: usize, light: *mut f64, ll: usize, out: *mut f64, ol: usize,
        ) -> u64;
        pub fn difficulty_counts_as(
            c: *const u8, cl: usize, s: *const u8, tl: usize, v: *const f64, vl: usize, aim: *mut f64, al: usize, still: *mut f64, nl: usize,
            speed: *mut f64, pl: usize, light: *mut f64, ll: usize, out: *mut f64, ol: usize,
        ) -> u64;
        pub fn difficulty_totals_to_as(
            c: *const u8, cl: usize, s: *const u8, tl: usize, v: *const f64, vl: usize, m: usize, aim: *mut f64, al: usize, still: *mut f64, nl: usize,
            speed: *mut f64, pl: usize, light: *mut f64, ll: usize, out: *mut f64, ol: usize,
        ) -> u64;
        pub fn difficulty_totals_while_playing_as(
            c: *const u8, cl: usize, s: *const u8, tl: usize, v: *const f64, vl: usize, list: *mut f64, el: usize, aim: *mut f64, al: usize, still: *mut f64, nl: usize,
            speed: *mut f64, pl: usize, light: *mut f64, ll: usize,
        ) -> u64;
        pub fn difficulty_ratings_as(
            c: *const u8, cl: usize, s: *const u8, tl: usize, v: *const f64, vl: usize, mods: u32, given: u32, numbers: *const f64, bl: usize, aim: *mut f64, al: usize, still: *mut f64, nl: usize,
            speed: *mut f64, pl: usize, light: *mut f64, ll: usize, out: *mut f64, ol: usize,
        ) -> u64;
        pub fn difficulty_replace_both(
            c: *mut u8, cl: usize, s: *const u8, tl: usize, place: usize, o: *const u8, ol: usize, r: *mut f64, rl: usize, v: *mut f64, vl: usize,
            second_r: *mut f64, second_rl: usize, second_v: *mut f64, second_vl: usize,
        ) -> u64;
        pub fn difficulty_insert_both(
            c: *mut u8, cl: usize, s: *const u8, tl: usize, place: usize, o: *const u8, ol: usize, r: *mut f64, rl: usize, v: *mut f64, vl: usize,
            second_r: *mut f64, second_rl: usize, second_v: *mut f64, second_vl: usize,
        ) -> u64;
        pub fn difficulty_remove_both(
            c: *mut u8, cl: usize, s: *const u8, tl: usize, place: usize, r: *mut f64, rl: usize, v: *mut f64, vl: usize,
            second_r: *mut f64, second_rl: usize, second_v: *mut f64, second_vl: usize,
        ) -> u64;
        pub fn difficulty_rank(
            p: *const u8, pl: usize, list: *mut u64, tl: usize, mods: u32, given: u32, numbers: *const f64, bl: usize, r: *mut f64, rl: usize,
            v: *mut f64, vl: usize, aim: *mut f64, al: usize, still: *mut f64, nl: usize, speed: *mut f64, sl: usize, light: *mut f64, ll: usize,
        ) -> u64;
        pub fn difficulty_join(
            p: *const u8, pl: usize, list: *mut u64, tl: usize, first: usize, mods: u32, given: u32, numbers: *const f64, bl: usize, r: *mut f64, rl: usize,
            v: *mut f64, vl: usize, aim: *mut f64, al: usize, still: *mut f64, nl: usize, speed: *mut f64, sl: usize, light: *mut f64, ll: usize,
        ) -> u64;
    }
}

/// C's environment of floating-point arithmetic on x86-64 Linux: that of the x87 in 28 bytes, and MXCSR.
#[repr(C)]
struct Environment([u32; 8]);

const DEFAULT: *const Environment = usize::MAX as *const Environment; // FE_DFL_ENV

#[link(name = "m")]
extern "C" {
    fn fegetenv(to: *mut Environment) -> i32;
    fn fesetenv(from: *const Environment) -> i32;
}

impl Drop for Environment {
    fn drop(&mut self) {
        unsafe { fesetenv(self) };
    }
}

/// Carries out a call in the default environment and gives the thread its own back, as include/station_guarded.h does in C. A program that is Rust alone does
/// not need it: Rust assumes the default environment. Code that a C host calls does. Never inlined: arithmetic of the host cannot be moved into it.
#[inline(never)]
pub fn guarded<T>(call: impl FnOnce() -> T) -> T {
    let mut host = Environment([0; 8]);
    // SAFETY: `host` has the size and alignment of fenv_t.
    unsafe {
        fegetenv(&mut host);
        fesetenv(DEFAULT);
    }
    call()
}

/// Bytes of an object of this chart, by its word at 28; a chart with any other word than 0 and 1 is refused by every call.
pub fn object_size(chart: &[u8]) -> usize {
    if chart.get(28..32) == Some(&[1, 0, 0, 0]) { STATED_OBJECT } else { OBJECT }
}

/// A refusal, or what was carried out.
pub type Answer = Result<(), Refusal>;

#[derive(Clone, Copy, Debug, PartialEq, Eq)]
pub struct Refusal {
    pub number: u32,
    pub place: u32,
}

pub fn answer(code: u64) -> Answer {
    if code == 0 { Ok(()) } else { Err(Refusal { number: (code >> 32) as u32, place: code as u32 }) }
}

// SAFETY of all: a slice's pointer and length are valid for the call, and a `&mut` overlaps nothing.

pub fn open(chart: &[u8], records: &mut [f64], values: &mut [f64]) -> Answer {
    answer(unsafe {
        library::difficulty_open(chart.as_ptr(), chart.len(), records.as_mut_ptr(), records.len(), values.as_mut_ptr(), values.len())
    })
}

pub fn replace(chart: &mut [u8], place: usize, object: &[u8], records: &mut [f64], values: &mut [f64]) -> Answer {
    answer(unsafe {
        library::difficulty_replace(
            chart.as_mut_ptr(), chart.len(), place, object.as_ptr(), object.len(),
            records.as_mut_ptr(), records.len(), values.as_mut_ptr(), values.len(),
        )
    })
}

pub fn insert(chart: &mut [u8], place: usize, object: &[u8], records: &mut [f64], values: &mut [f64]) -> Answer {
    answer(unsafe {
        library::difficulty_insert(
            chart.as_mut_ptr(), chart.len(), place, object.as_ptr(), object.len(),
            records.as_mut_ptr(), records.len(), values.as_mut_ptr(), values.len(),
        )
    })
}

pub fn remove(chart: &mut [u8], place: usize, records: &mut [f64], values: &mut [f64]) -> Answer {
    answer(unsafe {
        library::difficulty_remove(chart.as_mut_ptr(), chart.len(), place, records.as_mut_ptr(), records.len(), values.as_mut_ptr(), values.len())
    })
}

pub fn read_record(chart: &[u8], records: &[f64], place: usize, out: &mut [f64]) -> Answer {
    answer(unsafe {
        library::difficulty_read_record(chart.as_ptr(), chart.len(), records.as_ptr(), records.len(), place, out.as_mut_ptr(), out.len())
    })
}

pub fn read_values(chart: &[u8], values: &[f64], place: usize, out: &mut [f64]) -> Answer {
    answer(unsafe {
        library::difficulty_read_values(chart.as_ptr(), chart.len(), values.as_ptr(), values.len(), place, out.as_mut_ptr(), out.len())
    })
}

pub fn read_aim_parts(chart: &[u8], records: &[f64], place: usize, out: &mut [f64]) -> Answer {
    answer(unsafe {
        library::difficulty_read_aim_parts(chart.as_ptr(), chart.len(), records.as_ptr(), records.len(), place, out.as_mut_ptr(), out.len())
    })
}

pub fn read_rhythm(chart: &[u8], records: &[f64], place: usize, out: &mut [f64]) -> Answer {
    answer(unsafe {
        library::difficulty_read_rhythm(chart.as_ptr(), chart.len(), records.as_ptr(), records.len(), place, out.as_mut_ptr(), out.len())
    })
}

pub fn totals(chart: &[u8], values: &[f64], scratch: [&mut [f64]; 4], out: &mut [f64]) -> Answer {
    let [aim, still, speed, light] = scratch;
    answer(unsafe {
        library::difficulty_totals(
            chart.as_ptr(), chart.len(), values.as_ptr(), values.len(), aim.as_mut_ptr(), aim.len(), still.as_mut_ptr(), still.len(),
            speed.as_mut_ptr(), speed.len(), light.as_mut_ptr(), light.len(), out.as_mut_ptr(), out.len(),
        )
    })
}

pub fn counts(chart: &[u8], values: &[f64], scratch: [&mut [f64]; 4], out: &mut [f64]) -> Answer {
    let [aim, still, speed, light] = scratch;
    answer(unsafe {
        library::difficulty_counts(
            chart.as_ptr(), chart.len(), values.as_ptr(), values.len(), aim.as_mut_ptr(), aim.len(), still.as_mut_ptr(), still.len(),
            speed.as_mut_ptr(), speed.len(), light.as_mut_ptr(), light.len(), out.as_mut_ptr(), out.len(),
        )
    })
}

pub fn totals_to(chart: &[u8], values: &[f64], m: usize, scratch: [&mut [f64]; 4], out: &mut [f64]) -> Answer {
    let [aim, still, speed, light] = scratch;
    answer(unsafe {
        library::difficulty_totals_to(
            chart.as_ptr(), chart.len(), values.as_ptr(), values.len(), m, aim.as_mut_ptr(), aim.len(), still.as_mut_ptr(), still.len(),
            speed.as_mut_ptr(), speed.len(), light.as_mut_ptr(), light.len(), out.as_mut_ptr(), out.len(),
        )
    })
}

pub fn totals_while_playing(chart: &[u8], values: &[f64], list: &mut [f64], scratch: [&mut [f64]; 4]) -> Answer {
    let [aim, still, speed, light] = scratch;
    answer(unsafe {
        library::difficulty_totals_while_playing(
            chart.as_ptr(), chart.len(), values.as_ptr(), values.len(), list.as_mut_ptr(), list.len(), aim.as_mut_ptr(), aim.len(), still.as_mut_ptr(), still.len(),
            speed.as_mut_ptr(), speed.len(), light.as_mut_ptr(), light.len(),
        )
    })
}

pub fn ratings(chart: &[u8], values: &[f64], mods: u32, given: u32, numbers: &[f64], scratch: [&mut [f64]; 4], out: &mut [f64]) -> Answer {
    let [aim, still, speed, light] = scratch;
    answer(unsafe {
        library::difficulty_ratings(
            chart.as_ptr(), chart.len(), values.as_ptr(), values.len(), mods, given, numbers.as_ptr(), numbers.len(), aim.as_mut_ptr(), aim.len(), still.as_mut_ptr(), still.len(),
            speed.as_mut_ptr(), speed.len(), light.as_mut_ptr(), light.len(), out.as_mut_ptr(), out.len(),
        )
    })
}

// The second player's calls, with that player's settings and tables, and the edits for both.

pub fn open_as(chart: &[u8], settings: &[u8], records: &mut [f64], values: &mut [f64]) -> Answer {
    answer(unsafe {
        library::difficulty_open_as(chart.as_ptr(), chart.len(), settings.as_ptr(), settings.len(), records.as_mut_ptr(), records.len(), values.as_mut_ptr(), values.len())
    })
}

pub fn read_record_as(chart: &[u8], settings: &[u8], records: &[f64], place: usize, out: &mut [f64]) -> Answer {
    answer(unsafe {
        library::difficulty_read_record_as(chart.as_ptr(), chart.len(), settings.as_ptr(), settings.len(), records.as_ptr(), records.len(), place, out.as_mut_ptr(), out.len())
    })
}

pub fn read_values_as(chart: &[u8], settings: &[u8], values: &[f64], place: usize, out: &mut [f64]) -> Answer {
    answer(unsafe {
        library::difficulty_read_values_as(chart.as_ptr(), chart.len(), settings.as_ptr(), settings.len(), values.as_ptr(), values.len(), place, out.as_mut_ptr(), out.len())
    })
}

pub fn read_aim_parts_as(chart: &[u8], settings: &[u8], records: &[f64], place: usize, out: &mut [f64]) -> Answer {
    answer(unsafe {
        library::difficulty_read_aim_parts_as(chart.as_ptr(), chart.len(), settings.as_ptr(), settings.len(), records.as_ptr(), records.len(), place, out.as_mut_ptr(), out.len())
    })
}

pub fn read_rhythm_as(chart: &[u8], settings: &[u8], records: &[f64], place: usize, out: &mut [f64]) -> Answer {
    answer(unsafe {
        library::difficulty_read_rhythm_as(chart.as_ptr(), chart.len(), settings.as_ptr(), settings.len(), records.as_ptr(), records.len(), place, out.as_mut_ptr(), out.len())
    })
}

pub fn totals_as(chart: &[u8], settings: &[u8], values: &[f64], scratch: [&mut [f64]; 4], out: &mut [f64]) -> Answer {
    let [aim, still, speed, light] = scratch;
    answer(unsafe {
        library::difficulty_totals_as(
            chart.as_ptr(), chart.len(), settings.as_ptr(), settings.len(), values.as_ptr(), values.len(), aim.as_mut_ptr(), aim.len(), still.as_mut_ptr(), still.len(),
            speed.as_mut_ptr(), speed.len(), light.as_mut_ptr(), light.len(), out.as_mut_ptr(), out.len(),
        )
    })
}

pub fn counts_as(chart: &[u8], settings: &[u8], values: &[f64], scratch: [&mut [f64]; 4], out: &mut [f64]) -> Answer {
    let [aim, still, speed, light] = scratch;
    answer(unsafe {
        library::difficulty_counts_as(
            chart.as_ptr(), chart.len(), settings.as_ptr(), settings.len(), values.as_ptr(), values.len(), aim.as_mut_ptr(), aim.len(), still.as_mut_ptr(), still.len(),
            speed.as_mut_ptr(), speed.len(), light.as_mut_ptr(), light.len(), out.as_mut_ptr(), out.len(),
        )
    })
}

pub fn totals_to_as(chart: &[u8], settings: &[u8], values: &[f64], m: usize, scratch: [&mut [f64]; 4], out: &mut [f64]) -> Answer {
    let [aim, still, speed, light] = scratch;
    answer(unsafe {
        library::difficulty_totals_to_as(
            chart.as_ptr(), chart.len(), settings.as_ptr(), settings.len(), values.as_ptr(), values.len(), m, aim.as_mut_ptr(), aim.len(), still.as_mut_ptr(), still.len(),
            speed.as_mut_ptr(), speed.len(), light.as_mut_ptr(), light.len(), out.as_mut_ptr(), out.len(),
        )
    })
}

pub fn totals_while_playing_as(chart: &[u8], settings: &[u8], values: &[f64], list: &mut [f64], scratch: [&mut [f64]; 4]) -> Answer {
    let [aim, still, speed, light] = scratch;
    answer(unsafe {
        library::difficulty_totals_while_playing_as(
            chart.as_ptr(), chart.len(), settings.as_ptr(), settings.len(), values.as_ptr(), values.len(), list.as_mut_ptr(), list.len(), aim.as_mut_ptr(), aim.len(), still.as_mut_ptr(), still.len(),
            speed.as_mut_ptr(), speed.len(), light.as_mut_ptr(), light.len(),
        )
    })
}

pub fn ratings_as(chart: &[u8], settings: &[u8], values: &[f64], mods: u32, given: u32, numbers: &[f64], scratch: [&mut [f64]; 4], out: &mut [f64]) -> Answer {
    let [aim, still, speed, light] = scratch;
    answer(unsafe {
        library::difficulty_ratings_as(
            chart.as_ptr(), chart.len(), settings.as_ptr(), settings.len(), values.as_ptr(), values.len(), mods, given, numbers.as_ptr(), numbers.len(), aim.as_mut_ptr(), aim.len(), still.as_mut_ptr(), still.len(),
            speed.as_mut_ptr(), speed.len(), light.as_mut_ptr(), light.len(), out.as_mut_ptr(), out.len(),
        )
    })
}

pub fn replace_both(
    chart: &mut [u8], settings: &[u8], place: usize, object: &[u8], records: &mut [f64], values: &mut [f64], second_records: &mut [f64], second_values: &mut [f64],
) -> Answer {
    answer(unsafe {
        library::difficulty_replace_both(
            chart.as_mut_ptr(), chart.len(), settings.as_ptr(), settings.len(), place, object.as_ptr(), object.len(), records.as_mut_ptr(), records.len(), values.as_mut_ptr(), values.len(),
            second_records.as_mut_ptr(), second_records.len(), second_values.as_mut_ptr(), second_values.len(),
        )
    })
}

pub fn insert_both(
    chart: &mut [u8], settings: &[u8], place: usize, object: &[u8], records: &mut [f64], values: &mut [f64], second_records: &mut [f64], second_values: &mut [f64],
) -> Answer {
    answer(unsafe {
        library::difficulty_insert_both(
            chart.as_mut_ptr(), chart.len(), settings.as_ptr(), settings.len(), place, object.as_ptr(), object.len(), records.as_mut_ptr(), records.len(), values.as_mut_ptr(), values.len(),
            second_records.as_mut_ptr(), second_records.len(), second_values.as_mut_ptr(), second_values.len(),
        )
    })
}

pub fn remove_both(
    chart: &mut [u8], settings: &[u8], place: usize, records: &mut [f64], values: &mut [f64], second_records: &mut [f64], second_values: &mut [f64],
) -> Answer {
    answer(unsafe {
        library::difficulty_remove_both(
            chart.as_mut_ptr(), chart.len(), settings.as_ptr(), settings.len(), place, records.as_mut_ptr(), records.len(), values.as_mut_ptr(), values.len(),
            second_records.as_mut_ptr(), second_records.len(), second_values.as_mut_ptr(), second_values.len(),
        )
    })
}

/// Puts a list of offsets into a pack in order, the higher chart first.
#[allow(clippy::too_many_arguments)]
pub fn rank(pack: &[u8], list: &mut [u64], mods: u32, given: u32, numbers: &[f64], records: &mut [f64], values: &mut [f64], scratch: [&mut [f64]; 4]) -> Answer {
    let [aim, still, speed, light] = scratch;
    answer(unsafe {
        library::difficulty_rank(
            pack.as_ptr(), pack.len(), list.as_mut_ptr(), list.len(), mods, given, numbers.as_ptr(), numbers.len(), records.as_mut_ptr(), records.len(),
            values.as_mut_ptr(), values.len(), aim.as_mut_ptr(), aim.len(), still.as_mut_ptr(), still.len(), speed.as_mut_ptr(), speed.len(), light.as_mut_ptr(), light.len(),
        )
    })
}

/// The same for two lists, one behind the other: the first `first` offsets and the others may be listings already.
#[allow(clippy::too_many_arguments)]
pub fn join(pack: &[u8], list: &mut [u64], first: usize, mods: u32, given: u32, numbers: &[f64], records: &mut [f64], values: &mut [f64], scratch: [&mut [f64]; 4]) -> Answer {
    let [aim, still, speed, light] = scratch;
    answer(unsafe {
        library::difficulty_join(
            pack.as_ptr(), pack.len(), list.as_mut_ptr(), list.len(), first, mods, given, numbers.as_ptr(), numbers.len(), records.as_mut_ptr(), records.len(),
            values.as_mut_ptr(), values.len(), aim.as_mut_ptr(), aim.len(), still.as_mut_ptr(), still.len(), speed.as_mut_ptr(), speed.len(), light.as_mut_ptr(), light.len(),
        )
    })
}
