//! Footprints of discs and rings in plain Rust: the words are `disc` or `ring`, the size of the shapes in units, and how
//! many footprints there are to be. Writes a checksum of the cells and how many there were.
use std::env;

const SIDE: i32 = 128;
const N: u32 = 128;

fn next_word(word: u64) -> u64 {
    word.wrapping_mul(6364136223846793005).wrapping_add(1442695040888963407)
}

fn line(k: u32) -> i32 {
    (k as i32 - (N / 2) as i32) * SIDE
}

fn lines_up_to(coordinate: i32) -> u32 {
    let last = coordinate.div_euclid(SIDE) + (N / 2) as i32;
    (last + 1).clamp(0, N as i32 + 1) as u32
}

fn strips_met(low: i32, high: i32) -> (u32, u32) {
    (lines_up_to(low - 1).saturating_sub(1), lines_up_to(high).min(N))
}

fn gap(at: i32, low: i32, high: i32) -> u64 {
    (low - at).max(at - high).max(0) as u64
}

fn root(square: u64) -> u64 {
    let mut low: u64 = 0;
    let mut high: u64 = 0x1_0000_0000;
    while low + 1 < high {
        let middle = (low + high) / 2;
        if middle * middle <= square {
            low = middle;
        } else {
            high = middle;
        }
    }
    low
}

fn disc(x: i32, y: i32, r: i32) -> Vec<u16> {
    let columns = strips_met(x - r, x + r);
    let rows = strips_met(y - r, y + r);
    let mut cells = Vec::with_capacity(((rows.1 - rows.0) * (columns.1 - columns.0)) as usize);
    for row in rows.0..rows.1 {
        let up = gap(y, line(row), line(row + 1));
        let half = root((r as u64) * (r as u64) - up * up) as i32;
        let (start, end) = strips_met(x - half, x + half);
        for cell in row * N + start..row * N + end {
            cells.push(cell as u16);
        }
    }
    cells
}

fn turns_left(corners: &[i32; 16], i: usize) -> bool {
    let next = (i + 1) % 8;
    let way = |k: usize| (i64::from(corners[2 * k] - corners[2 * i]), i64::from(corners[2 * k + 1] - corners[2 * i + 1]));
    let (x, y) = way(next);
    (0..8).all(|k| k == i || k == next || 0 < x * way(k).1 - y * way(k).0)
}

fn is_valid(corners: &[i32; 16]) -> bool {
    corners.iter().all(|z| (-65_536..=65_536).contains(z)) && (0..8).all(|i| turns_left(corners, i))
}

fn ring(corners: &[i32; 16]) -> Vec<u16> {
    if !is_valid(corners) {
        return Vec::new();
    }
    let xs = || corners.iter().step_by(2).copied();
    let ys = || corners.iter().skip(1).step_by(2).copied();
    let (x0, x1) = (xs().min().unwrap(), xs().max().unwrap());
    let (y0, y1) = (ys().min().unwrap(), ys().max().unwrap());
    let columns = strips_met(x0, x1);
    let rows = strips_met(y0, y1);
    let mut cells = Vec::with_capacity(((rows.1 - rows.0) * (columns.1 - columns.0)) as usize);
    for row in rows.0..rows.1 {
        let (bottom, top) = (i64::from(line(row)), i64::from(line(row + 1)));
        let (mut low, mut high) = (i64::from(x0), i64::from(x1));
        for i in 0..8 {
            let next = (i + 1) % 8;
            let (x, y) = (i64::from(corners[2 * i]), i64::from(corners[2 * i + 1]));
            let dx = i64::from(corners[2 * next]) - x;
            let dy = i64::from(corners[2 * next + 1]) - y;
            let up = (dx * (bottom - y)).max(dx * (top - y));
            if 0 < dy {
                high = high.min(x + up.div_euclid(dy));
            } else if dy < 0 {
                low = low.max(x - up.div_euclid(-dy));
            } else if up < 0 {
                high = high.min(-65_537);
            }
        }
        let from = strips_met(low.clamp(-65_537, 65_537) as i32, 65_537);
        let up_to = strips_met(-65_537, high.clamp(-65_537, 65_537) as i32);
        let (start, end) = (from.0.max(up_to.0), from.1.min(up_to.1));
        for cell in row * N + start..row * N + end.max(start) {
            cells.push(cell as u16);
        }
    }
    cells
}

fn main() {
    let words: Vec<String> = env::args().collect();
    let size: i32 = words[2].parse().unwrap();
    let calls: u64 = words[3].parse().unwrap();
    let mut word = 1;
    let (mut sum, mut count) = (0u64, 0u64);
    for _ in 0..calls {
        word = next_word(word);
        let x = (word >> 50) as i32 - 8192;
        let y = ((word >> 30) % 16384) as i32 - 8192;
        let cells = if words[1] == "disc" {
            disc(x, y, size)
        } else {
            let (a, b) = (size, size / 2);
            ring(&[
                x + a, y - b, x + a, y + b, x + b, y + a, x - b, y + a, x - a, y + b, x - a, y - b, x - b, y - a, x + b, y - a,
            ])
        };
        count += cells.len() as u64;
        for cell in [cells.first(), cells.last()].into_iter().flatten() {
            sum = sum.wrapping_mul(3).wrapping_add(u64::from(*cell));
        }
    }
    println!("{sum} {count}");
}
