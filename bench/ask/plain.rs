// Asks over the map of a robot in plain Rust, by the definition: each joining motion, and each edge of the route, is swept
// in whole, and compared with the occupied cells. The words are the robot, the number of boxes, and the number of asks.
// Prints for each ask the nanoseconds that it took, and the answer.
use std::env;
use std::time::Instant;

include!("../plain/intervals.rs");
include!("../plain/roads.rs");
include!("../plain/sweeps.rs");
include!("../plain/maps.rs");

struct Draws(u64);

impl Draws {
    fn below(&mut self, n: u32) -> i32 {
        self.0 = self.0.wrapping_mul(6364136223846793005).wrapping_add(1442695040888963407);
        ((self.0 >> 33) % u64::from(n)) as i32
    }

    /// A box with a side of 64 to 256 that does not come near the base.
    fn rect(&mut self, reach: i32) -> [i32; 4] {
        loop {
            let (x, y) = (self.below(2 * reach as u32) - reach, self.below(2 * reach as u32) - reach);
            let (wide, high) = (64 + self.below(193), 64 + self.below(193));
            if x > 200 || x + wide < -200 || y > 200 || y + high < -200 {
                return [x, y, x + wide, y + high];
            }
        }
    }

    fn config(&mut self, joints: usize) -> Config {
        let mut values = [0; 6];
        for value in &mut values[..joints] {
            *value = self.below(2049) - 1024;
        }
        Config { values, joints: joints as u32 }
    }
}

/// What is occupied, and which nodes and edges are barred.
struct Scene {
    occupied: CellSet,
    nodes: Vec<bool>,
    edges: Vec<bool>,
}

fn meeting(a: &CellSet, b: &CellSet) -> Option<u32> {
    let both = a.words.iter().zip(&b.words).map(|(a, b)| a & b);
    both.enumerate().find(|(_, word)| *word != 0).map(|(place, word)| place as u32 * 64 + word.trailing_zeros())
}

fn occupied(grid: &Grid, rects: &[[i32; 4]]) -> CellSet {
    let mut cells = CellSet::new(grid.rows * grid.rows);
    for rect in rects {
        for row in 0..grid.rows {
            for column in 0..grid.rows {
                let (x, y) = (grid.line(column), grid.line(row));
                let side = i64::from(SIDE);
                let [x0, y0, x1, y1] = rect.map(i64::from);
                if x0 <= x + side && x <= x1 && y0 <= y + side && y <= y1 {
                    cells.insert(row * grid.rows + column);
                }
            }
        }
    }
    cells
}

struct Planner {
    arm: Arm,
    grid: Grid,
    nodes: Vec<Config>,
    edges: Vec<(u32, u32)>,
}

enum Joined {
    By(u32, u64),
    Refused(u64),
}

impl Planner {
    fn scene(&self, sets: &[CellSet], rects: &[[i32; 4]]) -> Scene {
        let occupied = occupied(&self.grid, rects);
        let met: Vec<bool> = sets.iter().map(|set| meeting(set, &occupied).is_some()).collect();
        let nodes = met[..self.nodes.len()].to_vec();
        let flags = self.edges.iter().zip(&met[self.nodes.len()..]);
        let edges = flags.map(|((a, b), met)| *met || nodes[*a as usize] || nodes[*b as usize]).collect();
        Scene { occupied, nodes, edges }
    }

    fn first_cell(&self, scene: &Scene, from: &Config, to: &Config) -> Option<u32> {
        let motion = Motion { from: from.values, to: to.values };
        meeting(&sweep(&self.arm, &self.grid, &motion, 0), &scene.occupied)
    }

    fn attach(&self, scene: &Scene, at: &Config, out: bool) -> Joined {
        let mut near: Vec<(u64, u32)> = (0..).zip(&self.nodes).map(|(i, node)| (length(at, node), i)).collect();
        near.sort_unstable();
        let mut tried = 0u64;
        for (_, node) in near.into_iter().take(12) {
            let there = &self.nodes[node as usize];
            let why = if scene.nodes[node as usize] {
                1
            } else {
                let (from, to) = if out { (at, there) } else { (there, at) };
                match self.first_cell(scene, from, to) {
                    Some(cell) => u64::from(cell) + 2,
                    None => return Joined::By(node, tried),
                }
            };
            tried = tried.wrapping_mul(31).wrapping_add(u64::from(node) * 65_536 + why);
        }
        Joined::Refused(tried)
    }

    fn labels(&self, scene: &Scene, from: u32) -> Vec<Option<u64>> {
        let mut labels = vec![None; self.nodes.len()];
        labels[from as usize] = Some(0);
        loop {
            let mut changed = false;
            for (&(a, b), barred) in self.edges.iter().zip(&scene.edges) {
                if *barred {
                    continue;
                }
                let weight = length(&self.nodes[a as usize], &self.nodes[b as usize]);
                for (u, v) in [(a as usize, b as usize), (b as usize, a as usize)] {
                    let offered: Option<u64> = labels[u].map(|label: u64| label + weight);
                    if offered.is_some() && labels[v].map_or(true, |label| offered.unwrap() < label) {
                        labels[v] = offered;
                        changed = true;
                    }
                }
            }
            if !changed {
                return labels;
            }
        }
    }

    fn route(&self, scene: &Scene, labels: &[Option<u64>], to: u32) -> Vec<u32> {
        let mut nodes = vec![to];
        let mut at = to;
        while labels[at as usize] != Some(0) {
            let steps = self.edges.iter().zip(&scene.edges).filter(|(_, barred)| !**barred).filter_map(|(&(a, b), _)| {
                let other = if a == at { b } else if b == at { a } else { return None };
                let weight = length(&self.nodes[a as usize], &self.nodes[b as usize]);
                let label = labels[other as usize]?;
                (label + weight == labels[at as usize]?).then_some(other)
            });
            at = steps.min().unwrap();
            nodes.push(at);
        }
        nodes.reverse();
        nodes
    }

    fn ask(&self, scene: &Scene, start: &Config, goal: &Config) -> String {
        let (first, before) = match self.attach(scene, start, true) {
            Joined::By(node, tried) => (node, tried),
            Joined::Refused(tried) => return format!("nostart {tried}"),
        };
        let (last, after) = match self.attach(scene, goal, false) {
            Joined::By(node, tried) => (node, tried),
            Joined::Refused(tried) => return format!("nogoal {tried}"),
        };
        let labels = self.labels(scene, first);
        let Some(length) = labels[last as usize] else {
            let side = labels.iter().filter(|label| label.is_some()).count();
            return format!("cut {first} {before} {last} {after} {side}");
        };
        let nodes = self.route(scene, &labels, last);
        for step in nodes.windows(2) {
            let (a, b) = (step[0].min(step[1]), step[0].max(step[1]));
            if let Some(cell) = self.first_cell(scene, &self.nodes[a as usize], &self.nodes[b as usize]) {
                let edge = self.edges.binary_search(&(a, b)).unwrap();
                return format!("unsound {first} {before} {last} {after} {edge} {cell}");
            }
        }
        let sum = nodes.iter().fold(0u64, |sum, node| sum.wrapping_mul(31).wrapping_add(u64::from(*node)));
        format!("path {first} {before} {last} {after} {length} {sum}")
    }
}

fn main() {
    let words: Vec<usize> = env::args().skip(1).map(|word| word.parse().unwrap_or(0)).collect();
    let (arm, grid, nodes, edges) = roadmap(words[0]);
    let sets = sweeps(&arm, &grid, &motions(&nodes, &edges), 4);
    let joints = arm.lens.len();
    let reach = if words[0] == 0 { 900 } else { 4_096 };
    let planner = Planner { arm, grid, nodes, edges };
    let mut draws = Draws(1);
    let rects: Vec<[i32; 4]> = (0..words[1]).map(|_| draws.rect(reach)).collect();
    let scene = planner.scene(&sets, &rects);
    for _ in 0..words[2] {
        let (start, goal) = (draws.config(joints), draws.config(joints));
        let begun = Instant::now();
        let answer = planner.ask(&scene, &start, &goal);
        println!("{} {answer}", begun.elapsed().as_nanos());
    }
}
