//! Charts to measure on.

const OBJECT: usize = 56;

struct Random(u64);

impl Random {
    fn below(&mut self, n: u64) -> u64 {
        self.0 ^= self.0 << 13;
        self.0 ^= self.0 >> 7;
        self.0 ^= self.0 << 17;
        (self.0 >> 11) % n
    }
}

pub fn put(bytes: &mut [u8], at: usize, field: &[u8]) {
    bytes[at..at + field.len()].copy_from_slice(field);
}

/// n objects 90 to 180 ms apart at chance positions; every eighth is a slider with a tick and a tail along two points.
pub fn chart(n: usize) -> Vec<u8> {
    let mut r = Random(0x9E37_79B9_7F4A_7C15);
    let sliders = n.div_ceil(8);
    let (nested_at, points_at) = (80 + OBJECT * n, 80 + OBJECT * n + 24 * 2 * sliders);
    let end = points_at + 16 * 2 * sliders;
    let mut s = vec![0; end];
    for (at, v) in [(0, n), (4, 2 * sliders), (8, 2 * sliders), (12, 80), (16, nested_at), (20, points_at), (24, end)] {
        put(&mut s, at, &(v as u32).to_le_bytes());
    }
    for (at, v) in [(32, 1.0), (40, 40.0), (48, 50.0), (56, 600.0), (64, 400.0f64)] {
        put(&mut s, at, &v.to_le_bytes());
    }
    put(&mut s, 72, &1.25f32.to_le_bytes());
    let mut time = 1000.0f64;
    for j in 0..n {
        let (at, slider) = (80 + OBJECT * j, j % 8 == 0);
        let (x, y) = (r.below(512) as f32, r.below(384) as f32);
        put(&mut s, at, &time.to_le_bytes());
        put(&mut s, at + 8, &(if slider { time + 60.0 } else { time }).to_le_bytes());
        put(&mut s, at + 16, &x.to_le_bytes());
        put(&mut s, at + 20, &y.to_le_bytes());
        if slider {
            let first = 2 * (j / 8);
            for (k, v) in [1, 1, first, 2, first, 2].iter().enumerate() {
                put(&mut s, at + 32 + 4 * k, &(*v as u32).to_le_bytes());
            }
            for (k, (t, reach, kind)) in [(30.0, 40.0, 0u32), (60.0, 80.0, 2)].into_iter().enumerate() {
                let at = nested_at + 24 * (first + k);
                put(&mut s, at, &(time + t).to_le_bytes());
                put(&mut s, at + 8, &(x + reach).to_le_bytes());
                put(&mut s, at + 12, &y.to_le_bytes());
                put(&mut s, at + 16, &kind.to_le_bytes());
            }
            put(&mut s, points_at + 16 * (first + 1), &80.0f32.to_le_bytes());
            put(&mut s, points_at + 16 * (first + 1) + 8, &80.0f64.to_le_bytes());
        }
        time += [90.0, 90.0, 120.0, 180.0][r.below(4) as usize];
    }
    s
}
