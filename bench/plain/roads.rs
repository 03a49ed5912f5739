// Roadmaps in plain Rust: drawn configurations, and the nearest of each. Other programs include this text.
use std::collections::HashSet;
use std::convert::TryInto;

#[derive(Clone, Copy, PartialEq, Eq, Hash)]
struct Config {
    values: [i32; 6],
    joints: u32,
}

struct Pcg64 {
    state: u128,
    increment: u128,
}

const MULTIPLIER: u128 = 0x2360_ED05_1FC6_5DA4_4385_DF64_9FCC_F645;

impl Pcg64 {
    fn of_seed(seed: u64) -> Pcg64 {
        let mut state = seed;
        let mut bytes = [0u8; 32];
        for chunk in bytes.chunks_mut(4) {
            state = state.wrapping_mul(0x5851_F42D_4C95_7F2D).wrapping_add(0xA176_54E4_6FBE_17F3);
            let word = ((((state >> 18) ^ state) >> 27) as u32).rotate_right((state >> 59) as u32);
            chunk.copy_from_slice(&word.to_le_bytes());
        }
        let start = u128::from_le_bytes(bytes[..16].try_into().unwrap());
        let increment = u128::from_le_bytes(bytes[16..].try_into().unwrap()) | 1;
        let mut pcg = Pcg64 { state: start.wrapping_add(increment), increment };
        pcg.state = pcg.state.wrapping_mul(MULTIPLIER).wrapping_add(pcg.increment);
        pcg
    }

    fn word(&mut self) -> u64 {
        self.state = self.state.wrapping_mul(MULTIPLIER).wrapping_add(self.increment);
        (((self.state >> 64) as u64) ^ (self.state as u64)).rotate_right((self.state >> 122) as u32)
    }
}

fn sample(limits: &[(i32, i32)], seed: u64, draws: u32) -> Vec<Config> {
    let mut pcg = Pcg64::of_seed(seed);
    let mut met = HashSet::new();
    let mut nodes = Vec::new();
    for _ in 0..draws {
        let mut values = [0; 6];
        for (value, (lo, hi)) in values.iter_mut().zip(limits) {
            *value = lo + (pcg.word() % (hi.abs_diff(*lo) as u64 + 1)) as i32;
        }
        let config = Config { values, joints: limits.len() as u32 };
        if met.insert(config) {
            nodes.push(config);
        }
    }
    nodes
}

fn length(a: &Config, b: &Config) -> u64 {
    a.values[..a.joints as usize].iter().zip(&b.values[..b.joints as usize]).map(|(x, y)| x.abs_diff(*y) as u64).sum()
}

fn pairs(nodes: &[Config], near: usize) -> Vec<(u32, u32)> {
    let mut edges = Vec::new();
    let mut best: Vec<(u64, u32)> = Vec::new();
    for i in 0..nodes.len() {
        best.clear();
        for j in 0..nodes.len() {
            if j == i {
                continue;
            }
            let far = length(&nodes[i], &nodes[j]);
            let at = best.iter().rposition(|place| place.0 <= far).map_or(0, |p| p + 1);
            if at < near {
                best.truncate(near - 1);
                best.insert(at, (far, j as u32));
            }
        }
        edges.extend(best.iter().map(|(_, j)| (*j.min(&(i as u32)), *j.max(&(i as u32)))));
    }
    edges.sort_unstable();
    edges.dedup();
    edges
}
