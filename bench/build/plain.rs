// The same maps in plain Rust: drawn nodes, the nearest of each, and the swept cells by their definition, found by threads
// that have consecutive elements. The words are the robot, the number of threads, and how often the map is then checked by
// one thread: each element is swept with both pads.
use std::env;

include!("../plain/intervals.rs");
include!("../plain/roads.rs");
include!("../plain/sweeps.rs");
include!("../plain/maps.rs");

impl CellSet {
    fn cells(&self) -> Vec<u16> {
        let mut cells = Vec::new();
        for (place, word) in self.words.iter().enumerate() {
            let mut word = *word;
            while word != 0 {
                cells.push((place as u32 * 64 + word.trailing_zeros()) as u16);
                word &= word - 1;
            }
        }
        cells
    }
}

/// Whether each list has every cell that is swept without a pad, and only cells that are swept with half of a side as pad.
fn passes(arm: &Arm, grid: &Grid, motions: &[Motion], sets: &[CellSet]) -> bool {
    motions.iter().zip(sets).all(|(motion, stored)| {
        let least = sweep(arm, grid, motion, 0);
        let most = sweep(arm, grid, motion, SIDE / 2);
        let words = least.words.iter().zip(&stored.words).zip(&most.words);
        words.into_iter().all(|((least, stored), most)| least & !stored == 0 && stored & !most == 0)
    })
}

fn mixed(sum: u64, number: u64) -> u64 {
    (sum ^ number).wrapping_mul(1099511628211)
}

fn main() {
    let words: Vec<usize> = env::args().skip(1).map(|word| word.parse().unwrap_or(0)).collect();
    let (arm, grid, nodes, edges) = roadmap(words[0]);
    let motions = motions(&nodes, &edges);
    let sets = sweeps(&arm, &grid, &motions, words[1]);
    let passed = (0..words[2]).filter(|_| passes(&arm, &grid, &motions, &sets)).count();
    let lists: Vec<Vec<u16>> = sets.iter().map(CellSet::cells).collect();
    let (mut cells, mut sum) = (0u64, 14695981039346656037);
    for list in &lists {
        for cell in list {
            sum = mixed(sum, u64::from(*cell));
            cells += 1;
        }
    }
    println!("nodes {} edges {} cells {cells} checksum {sum} passed {passed}", nodes.len(), edges.len());
}
