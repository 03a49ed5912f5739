// The same roadmaps in plain Rust.
use std::env;

include!("../plain/roads.rs");

fn roadmap(nodes: &[Config]) -> u64 {
    let mut met = HashSet::new();
    let fine = nodes.iter().all(|node| node.joints == nodes[0].joints && met.insert(*node));
    if fine { nodes.len() as u64 } else { 0 }
}

fn main() {
    let words: Vec<u32> = env::args().skip(1).map(|word| word.parse().unwrap()).collect();
    let limits = [(-1024, 1024); 6];
    let mut sum: u64 = 0;
    for round in 0..words[1] {
        let nodes = sample(&limits, round as u64, 2048);
        let answer = match words[0] {
            0 => nodes.len() as u64,
            1 => pairs(&nodes, 16).iter().fold(0u64, |sum, (a, b)| {
                sum.wrapping_mul(31).wrapping_add(*a as u64).wrapping_mul(31).wrapping_add(*b as u64)
            }),
            _ => roadmap(&nodes),
        };
        sum = sum.wrapping_mul(31).wrapping_add(answer);
    }
    println!("{sum}");
}
