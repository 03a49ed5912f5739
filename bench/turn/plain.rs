//! The arithmetic of `drm_num` and `drm_half` in plain Rust, for comparison: the words are `turn` or `mul_add2`, and
//! how many calls there are to be, and it prints a checksum.

use std::env;

const UNIT: i64 = 1 << 30;
const WIDE_UNIT: i128 = 1 << 30;

#[derive(Clone, Copy)]
struct Iv {
    lo: i64,
    hi: i64,
}

struct Spin {
    c: Iv,
    s: Iv,
}

fn products(a: Iv, b: Iv) -> (i64, i64) {
    let low_low = a.lo * b.lo;
    let low_high = a.lo * b.hi;
    let high_low = a.hi * b.lo;
    let high_high = a.hi * b.hi;
    (
        low_low.min(low_high).min(high_low.min(high_high)),
        low_low.max(low_high).max(high_low.max(high_high)),
    )
}

fn mul_add2(a: Iv, b: Iv, c: Iv, d: Iv) -> Iv {
    let (first_least, first_greatest) = products(a, b);
    let (second_least, second_greatest) = products(c, d);
    Iv {
        lo: (first_least + second_least) >> 30,
        hi: -(-(first_greatest + second_greatest) >> 30),
    }
}

fn bottom(a: i64) -> i128 {
    WIDE_UNIT * WIDE_UNIT + i128::from(a) * i128::from(a)
}

fn cosine_top(a: i64) -> i128 {
    WIDE_UNIT * (WIDE_UNIT * WIDE_UNIT - i128::from(a) * i128::from(a))
}

fn sine_top(a: i64) -> i128 {
    WIDE_UNIT * (2 * (i128::from(a) * WIDE_UNIT))
}

fn floor_of(n: i128, d: i128) -> i64 {
    n.div_euclid(d) as i64
}

fn ceiling_of(n: i128, d: i128) -> i64 {
    -floor_of(-n, d)
}

fn turn(t: Iv) -> Spin {
    let nearest = t.lo.max(-t.hi).max(0);
    let farthest = (-t.lo).max(t.hi);
    let c = Iv {
        lo: floor_of(cosine_top(farthest), bottom(farthest)),
        hi: ceiling_of(cosine_top(nearest), bottom(nearest)),
    };
    let least = if t.lo <= -UNIT && -UNIT <= t.hi {
        -UNIT
    } else {
        floor_of(sine_top(t.lo), bottom(t.lo)).min(floor_of(sine_top(t.hi), bottom(t.hi)))
    };
    let greatest = if t.lo <= UNIT && UNIT <= t.hi {
        UNIT
    } else {
        ceiling_of(sine_top(t.lo), bottom(t.lo)).max(ceiling_of(sine_top(t.hi), bottom(t.hi)))
    };
    Spin {
        c,
        s: Iv { lo: least, hi: greatest },
    }
}

fn next_word(word: u64) -> u64 {
    word.wrapping_mul(6364136223846793005).wrapping_add(1442695040888963407)
}

fn tangents(word: u64) -> Iv {
    let lo = (word >> 31) as i64 - (1 << 32);
    Iv {
        lo,
        hi: (lo + (word % 8192) as i64).min(1 << 32),
    }
}

fn factors(word: u64) -> Iv {
    let lo = (word >> 33) as i64 - (1 << 30);
    Iv {
        lo,
        hi: (lo + (word % 8192) as i64).min(1 << 30),
    }
}

fn turns(calls: u64) -> i64 {
    let mut word = 1;
    let mut sum: i64 = 0;
    for _ in 0..calls {
        word = next_word(word);
        let spin = turn(tangents(word));
        sum = sum.wrapping_add(spin.c.lo).wrapping_sub(spin.c.hi);
        sum = sum.wrapping_add(spin.s.lo).wrapping_sub(spin.s.hi);
        sum = sum.wrapping_mul(3);
    }
    sum
}

fn products_of_two(calls: u64) -> i64 {
    let mut word = 1;
    let mut sum: i64 = 0;
    for _ in 0..calls {
        let a = next_word(word);
        let b = next_word(a);
        let c = next_word(b);
        word = next_word(c);
        let held = mul_add2(factors(a), factors(b), factors(c), factors(word));
        sum = sum.wrapping_add(held.lo).wrapping_sub(held.hi).wrapping_mul(3);
    }
    sum
}

fn main() {
    let words: Vec<String> = env::args().collect();
    let calls = words[2].parse().unwrap_or(0);
    let sum = if words[1] == "turn" { turns(calls) } else { products_of_two(calls) };
    println!("{sum}");
}
