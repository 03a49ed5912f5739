// The swept cells by their definition, in plain Rust: the same words give the same checksum as the proved program.
//
// A motion is halved until its pose is a leaf; at a leaf each link is cut in pieces, and each cell of the rows and
// columns that the box of a piece reaches is tested, unless it is swept already.
use std::env;

include!("../plain/intervals.rs");
include!("../plain/sweeps.rs");

const LISTED: u32 = 8;

fn arm_of(links: u32, rows: u32) -> Arm {
    let lens: &[u32] = match (links, rows) {
        (1, 16) => &[900],
        (1, 64) => &[3600],
        (1, _) => &[4096],
        (3, 16) => &[400, 300, 200],
        (3, 64) => &[1600, 1200, 800],
        (3, _) => &[1600, 1400, 1096],
        (_, 16) => &[150; 6],
        (_, 64) => &[600; 6],
        _ => &[683, 683, 683, 683, 682, 682],
    };
    Arm { lens: lens.to_vec() }
}

fn drawn(seed: &mut u64) -> i32 {
    *seed = seed.wrapping_mul(6364136223846793005).wrapping_add(1442695040888963407);
    (*seed >> 33) as i32
}

fn motion_of(seed: &mut u64, far: i32) -> Motion {
    let mut motion = Motion { from: [0; 6], to: [0; 6] };
    for k in 0..6 {
        let start = drawn(seed) % 8193 - 4096;
        let step = drawn(seed) % (2 * far + 1) - far;
        motion.from[k] = start;
        motion.to[k] = if far == 0 { start } else { (start + step).clamp(-4096, 4096) };
    }
    motion
}

fn mixed(sum: u64, number: u64) -> u64 {
    (sum ^ number).wrapping_mul(1099511628211)
}

fn main() {
    let words: Vec<u32> = env::args().skip(1).map(|word| word.parse().unwrap_or(0)).collect();
    let (rows, far, pad, count) = (words[1], words[2] as i32, words[3], words[4]);
    let arm = arm_of(words[0], rows);
    let grid = Grid { rows };
    let mut seed = 1;
    let mut sum = 14695981039346656037;
    for turn in 0..count {
        let motion = motion_of(&mut seed, far);
        let set = sweep(&arm, &grid, &motion, pad);
        if turn < LISTED {
            for cell in (0..rows * rows).filter(|cell| set.has(*cell)) {
                sum = mixed(sum, u64::from(cell));
            }
        }
        if set.has(turn % 256) {
            sum = mixed(sum, u64::from(turn));
        }
    }
    println!("{sum}");
}
