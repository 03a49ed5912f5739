// Intervals, turns and moments of motions in plain Rust. Other programs include this text.
const UNIT: i64 = 1 << 30;

#[derive(Clone, Copy)]
struct Iv {
    lo: i64,
    hi: i64,
}

impl Iv {
    fn width(self) -> i64 {
        self.hi - self.lo
    }

    fn gap(self, other: Iv) -> i64 {
        (other.lo - self.hi).max(self.lo - other.hi).max(0)
    }
}

#[derive(Clone, Copy)]
struct Plate {
    x: Iv,
    y: Iv,
}

fn products(a: Iv, b: Iv) -> (i64, i64) {
    let (p, q, r, s) = (a.lo * b.lo, a.lo * b.hi, a.hi * b.lo, a.hi * b.hi);
    (p.min(q).min(r.min(s)), p.max(q).max(r.max(s)))
}

fn rounded(lo: i64, hi: i64) -> Iv {
    Iv { lo: lo >> 30, hi: -(-hi >> 30) }
}

fn mul_add2(a: Iv, b: Iv, c: Iv, d: Iv) -> Iv {
    let (p, q) = products(a, b);
    let (r, s) = products(c, d);
    rounded(p + r, q + s)
}

fn mul_sub2(a: Iv, b: Iv, c: Iv, d: Iv) -> Iv {
    let (p, q) = products(a, b);
    let (r, s) = products(c, d);
    rounded(p - s, q - r)
}

fn cut_unit(a: Iv) -> Iv {
    Iv { lo: a.lo.max(-UNIT), hi: a.hi.min(UNIT) }
}

fn scale(a: Iv, k: i64) -> Iv {
    Iv { lo: k * a.lo, hi: k * a.hi }
}

fn add(a: Iv, b: Iv) -> Iv {
    Iv { lo: a.lo + b.lo, hi: a.hi + b.hi }
}

fn bottom(a: i64) -> i128 {
    let (a, unit) = (i128::from(a), i128::from(UNIT));
    unit * unit + a * a
}

fn cosine_top(a: i64) -> i128 {
    let (a, unit) = (i128::from(a), i128::from(UNIT));
    unit * (unit * unit - a * a)
}

fn sine_top(a: i64) -> i128 {
    let (a, unit) = (i128::from(a), i128::from(UNIT));
    unit * (2 * (a * unit))
}

fn floor(n: i128, d: i128) -> i64 {
    n.div_euclid(d) as i64
}

fn ceiling(n: i128, d: i128) -> i64 {
    -((-n).div_euclid(d) as i64)
}

fn cosines(t: Iv) -> Iv {
    let nearest = t.lo.max(-t.hi).max(0);
    let farthest = (-t.lo).max(t.hi);
    Iv { lo: floor(cosine_top(farthest), bottom(farthest)), hi: ceiling(cosine_top(nearest), bottom(nearest)) }
}

fn sines(t: Iv) -> Iv {
    let lo = if t.lo <= -UNIT && -UNIT <= t.hi {
        -UNIT
    } else {
        floor(sine_top(t.lo), bottom(t.lo)).min(floor(sine_top(t.hi), bottom(t.hi)))
    };
    let hi = if t.lo <= UNIT && UNIT <= t.hi {
        UNIT
    } else {
        ceiling(sine_top(t.lo), bottom(t.lo)).max(ceiling(sine_top(t.hi), bottom(t.hi)))
    };
    Iv { lo, hi }
}

fn tangent_at(from: i32, to: i32, depth: u32, i: u32) -> i64 {
    let start = i64::from(from);
    (start * (1 << depth) + (i64::from(to) - start) * i64::from(i)) * (1 << (20 - depth))
}

fn joint_interval(from: i32, to: i32, depth: u32, index: u32) -> Iv {
    let start = tangent_at(from, to, depth, index);
    let end = tangent_at(from, to, depth, index + 1);
    Iv { lo: start.min(end), hi: start.max(end) }
}
