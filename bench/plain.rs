//! The rules on numbers in plain Rust, with 128-bit products: what the benchmark compares with.
use std::f64::consts::PI;

fn mul62(a: u64, b: u64) -> u64 {
    ((a as u128 * b as u128) >> 62) as u64
}

/// The whole root of n.
fn isqrt(n: u128) -> u64 {
    let (mut root, mut rest) = (0u128, n);
    let mut bit = 1u128 << 126;
    while bit > rest {
        bit >>= 2;
    }
    while bit > 0 {
        if rest >= root + bit {
            rest -= root + bit;
            root = (root >> 1) + bit;
        } else {
            root >>= 1;
        }
        bit >>= 2;
    }
    root as u64
}

pub struct Table([u64; 41]);

impl Table {
    pub fn new() -> Self {
        let mut t = [1u64 << 63; 41];
        for j in 0..40 {
            t[j + 1] = isqrt((t[j] as u128) << 62);
        }
        Table(t)
    }

    pub fn two(&self, p: f64) -> f64 {
        if p.is_nan() {
            return p;
        }
        if p < -1022.0 * (1u64 << 40) as f64 {
            return 0.0;
        }
        if p >= (1u64 << 50) as f64 {
            return f64::INFINITY;
        }
        let e = p.floor() as i64;
        let (n, f) = (e >> 40, e & ((1 << 40) - 1));
        let mut big = 1u64 << 62;
        for j in 1..=40 {
            if f >> (40 - j) & 1 == 1 {
                big = mul62(big, self.0[j]);
            }
        }
        let kept = (big + 511 + (big >> 10 & 1)) >> 10;
        f64::from_bits((((n + 1023) as u64) << 52) + (kept - (1 << 52)))
    }

    pub fn power(&self, b: f64, e: f64) -> f64 {
        if e == 2.0 {
            b * b
        } else if e == 3.0 {
            b * b * b
        } else if e == 0.5 {
            b.sqrt()
        } else if !b.is_finite() || !e.is_finite() || b < 0.0 {
            f64::NAN
        } else if b > 0.0 {
            self.two(e * log(b) as f64)
        } else if e == 0.0 {
            1.0
        } else if e > 0.0 {
            0.0
        } else {
            f64::INFINITY
        }
    }

    pub fn exp(&self, x: f64) -> f64 {
        if x.is_finite() { self.two(x * 1.4426950408889634 * (1u64 << 40) as f64) } else { f64::NAN }
    }
}

/// A finite number above zero as a significand of 63 digits and the place of its highest digit.
fn normal(b: f64) -> (u64, i64) {
    let bits = b.to_bits();
    let (field, digits) = (bits >> 52, bits & ((1 << 52) - 1));
    let (m, e) = if field == 0 { (digits, -1074) } else { (digits | 1 << 52, field as i64 - 1075) };
    let zeros = m.leading_zeros();
    (m << (zeros - 1), e + 63 - zeros as i64)
}

fn log(b: f64) -> i64 {
    let (mut m, q) = normal(b);
    let mut bits = 0;
    for _ in 0..40 {
        m = mul62(m, m);
        bits = bits * 2 + (m >> 63) as i64;
        m >>= m >> 63;
    }
    (q << 40) + bits
}

pub fn log10(b: f64) -> f64 {
    if b.is_finite() && b > 0.0 { log(b) as f64 / (1u64 << 40) as f64 * 0.3010299956639812 } else { f64::NAN }
}

/// The root by whole numbers: 53 digits and the rest.
pub fn root64(x: f64) -> f64 {
    if x == 0.0 || x.is_nan() || x == f64::INFINITY {
        return x;
    }
    if x < 0.0 {
        return f64::NAN;
    }
    let (m, q) = normal(x);
    let wide = (m as u128) << (42 + (q & 1));
    let root = isqrt(wide);
    let up = wide - root as u128 * root as u128 > root as u128;
    f64::from_bits((((q >> 1) + 1023) as u64) * (1 << 52) + root + up as u64 - (1 << 52))
}

pub fn root32(x: f32) -> f32 {
    if x == 0.0 || x.is_nan() || x == f32::INFINITY {
        return x;
    }
    if x < 0.0 {
        return f32::NAN;
    }
    let (m, q) = normal(x as f64);
    let wide = (m >> 16) << (q & 1);
    let root = isqrt(wide as u128);
    let up = wide - root * root > root;
    f32::from_bits((((q >> 1) + 127) as u32) * (1 << 23) + (root as u32 + up as u32) - (1 << 23))
}

fn scaled(x: i64, y: i64) -> (i64, i64) {
    let n = 64 - x.unsigned_abs().max(y.unsigned_abs()).leading_zeros() as i64;
    if n > 31 { (x / (1 << (n - 31)), y / (1 << (n - 31))) } else { (x << (31 - n), y << (31 - n)) }
}

/// A finite number as a whole number of at most 53 digits and an exponent.
fn parts(x: f64) -> (i64, i64) {
    let (field, digits) = (x.to_bits() >> 52 & 0x7FF, x.to_bits() & ((1 << 52) - 1));
    let (m, e) = if field == 0 { (digits as i64, -1074) } else { ((digits | 1 << 52) as i64, field as i64 - 1075) };
    (if x < 0.0 { -m } else { m }, e)
}

/// m * 2^e toward zero.
fn shifted(m: i64, e: i64) -> i64 {
    if e >= 0 { m << e } else if e < -63 { 0 } else { m / (1i64 << -e).max(1) }
}

pub fn angle(dot: f64, det: f64) -> f64 {
    if !dot.is_finite() || !det.is_finite() {
        return f64::NAN;
    }
    let straight = if dot.is_sign_negative() { PI } else { 0.0 };
    let larger = dot.abs().max(det.abs());
    if det == 0.0 {
        return straight;
    }
    let top = normal(larger).1 - 30;
    let ((a, d), (b, e)) = (parts(dot), parts(det.abs()));
    let (mut x, mut y) = (shifted(a, d - top), shifted(b, e - top));
    if y == 0 {
        return straight;
    }
    let mut bits = 0u64;
    for _ in 0..28 {
        if y == 0 && x < 0 {
            bits = bits * 2 + 1;
            continue;
        }
        (x, y) = (x * x - y * y, 2 * x * y);
        let low = y < 0 || y == 0 && x < 0;
        bits = bits * 2 + low as u64;
        if low {
            (x, y) = (-x, -y);
        }
        (x, y) = scaled(x, y);
    }
    bits as f64 / (1u64 << 28) as f64 * PI
}
