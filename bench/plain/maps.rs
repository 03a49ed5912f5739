// Maps in plain Rust. Other programs include this text, after those of intervals, roads and sweeps.
use std::thread;

/// The motions of the nodes, and then of the edges.
fn motions(nodes: &[Config], edges: &[(u32, u32)]) -> Vec<Motion> {
    let stay = nodes.iter().map(|node| Motion { from: node.values, to: node.values });
    let go = edges.iter().map(|(a, b)| Motion { from: nodes[*a as usize].values, to: nodes[*b as usize].values });
    stay.chain(go).collect()
}

/// The swept cells of each motion, in pieces of consecutive ones, two for each thread.
fn sweeps(arm: &Arm, grid: &Grid, motions: &[Motion], threads: usize) -> Vec<CellSet> {
    let pieces = 2 * threads;
    let size = motions.len().div_ceil(pieces);
    thread::scope(|scope| {
        let works: Vec<_> = motions
            .chunks(size)
            .map(|piece| scope.spawn(move || piece.iter().map(|motion| sweep(arm, grid, motion, SIDE / 4)).collect::<Vec<_>>()))
            .collect();
        works.into_iter().flat_map(|work| work.join().unwrap()).collect()
    })
}

/// The arm, grid, nodes and edges of a robot: 0 has three links on a grid of 16 rows, 150 draws and 6 near nodes; 1 has six
/// links on a grid of 128 rows, 500 draws and 8 near nodes.
fn roadmap(robot: usize) -> (Arm, Grid, Vec<Config>, Vec<(u32, u32)>) {
    let (lens, rows, draws, near): (&[u32], u32, u32, usize) =
        if robot == 0 { (&[400, 300, 200], 16, 150, 6) } else { (&[683, 683, 683, 683, 682, 682], 128, 500, 8) };
    let nodes = sample(&vec![(-1024, 1024); lens.len()], 7, draws);
    let edges = pairs(&nodes, near);
    (Arm { lens: lens.to_vec() }, Grid { rows }, nodes, edges)
}
