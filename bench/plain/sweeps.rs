// Swept cells in plain Rust, by their definition. Other programs include this text, after that of intervals.
const SIDE: u32 = 128;
const RADIUS: u32 = 40;

#[derive(Clone, Copy)]
struct LinkBox {
    base: Plate,
    shift: Plate,
    tip: Plate,
}

struct Arm {
    lens: Vec<u32>,
}

#[derive(Clone, Copy)]
struct Motion {
    from: [i32; 6],
    to: [i32; 6],
}

struct Grid {
    rows: u32,
}

struct CellSet {
    words: Vec<u64>,
}

impl CellSet {
    fn new(cells: u32) -> CellSet {
        CellSet { words: vec![0; cells.div_ceil(64) as usize] }
    }

    fn insert(&mut self, cell: u32) {
        self.words[(cell / 64) as usize] |= 1 << (cell % 64);
    }

    fn has(&self, cell: u32) -> bool {
        (self.words[(cell / 64) as usize] >> (cell % 64)) & 1 == 1
    }
}

/// The boxes of all links over a piece of the motion.
fn pose(arm: &Arm, motion: &Motion, depth: u32, index: u32) -> ([LinkBox; 6], usize) {
    let zero = Iv { lo: 0, hi: 0 };
    let origin = Plate { x: zero, y: zero };
    let mut direction = Plate { x: Iv { lo: UNIT, hi: UNIT }, y: zero };
    let mut base = origin;
    let mut links = [LinkBox { base: origin, shift: origin, tip: origin }; 6];
    for (k, len) in arm.lens.iter().enumerate() {
        let t = joint_interval(motion.from[k], motion.to[k], depth, index);
        let (c, s) = (cosines(t), sines(t));
        direction = Plate {
            x: cut_unit(mul_sub2(direction.x, c, direction.y, s)),
            y: cut_unit(mul_add2(direction.x, s, direction.y, c)),
        };
        let shift = Plate { x: scale(direction.x, i64::from(*len)), y: scale(direction.y, i64::from(*len)) };
        let tip = Plate { x: add(base.x, shift.x), y: add(base.y, shift.y) };
        links[k] = LinkBox { base, shift, tip };
        base = tip;
    }
    (links, arm.lens.len())
}

fn spread(links: &[LinkBox]) -> i64 {
    links.iter().map(|link| link.tip.x.width().max(link.tip.y.width())).max().unwrap_or(0)
}

/// Piece `p` of `n` of a link, in one coordinate.
fn part(base: Iv, shift: Iv, p: u32, n: u32) -> Iv {
    let (p, n) = (i64::from(p), i64::from(n));
    let least = (shift.lo * p).min(shift.lo * (p + 1));
    let greatest = (shift.hi * p).max(shift.hi * (p + 1));
    Iv { lo: base.lo + least.div_euclid(n), hi: base.hi - (-greatest).div_euclid(n) }
}

impl Grid {
    fn line(&self, k: u32) -> i64 {
        (i64::from(k) - i64::from(self.rows / 2)) * i64::from(SIDE)
    }

    fn strip(&self, k: u32) -> Iv {
        Iv { lo: self.line(k) * UNIT, hi: self.line(k + 1) * UNIT }
    }

    /// The rows or columns that are at most `far` from the interval.
    fn reached(&self, x: Iv, far: u32) -> std::ops::Range<u32> {
        let low = -(-x.lo >> 30) - i64::from(far);
        let high = (x.hi >> 30) + i64::from(far);
        let place = |coordinate: i64| coordinate.div_euclid(i64::from(SIDE)) + i64::from(self.rows / 2);
        let start = place(low - 1).clamp(0, i64::from(self.rows));
        let end = (place(high) + 1).clamp(0, i64::from(self.rows));
        start as u32..end as u32
    }

    fn is_near(&self, plate: &Plate, row: u32, column: u32, far: u32) -> bool {
        let across = i128::from(plate.x.gap(self.strip(column)));
        let up = i128::from(plate.y.gap(self.strip(row)));
        let far = i128::from(i64::from(far) * UNIT);
        across * across + up * up <= far * far
    }
}

fn add_leaf(arm: &Arm, grid: &Grid, links: &[LinkBox], pad: u32, cells: &mut CellSet) {
    let far = RADIUS + pad;
    for (link, len) in links.iter().zip(&arm.lens) {
        let n = (16 * len).div_ceil(SIDE);
        for p in 0..n {
            let plate = Plate {
                x: part(link.base.x, link.shift.x, p, n),
                y: part(link.base.y, link.shift.y, p, n),
            };
            let columns = grid.reached(plate.x, far);
            for row in grid.reached(plate.y, far) {
                for column in columns.clone() {
                    let cell = row * grid.rows + column;
                    if !cells.has(cell) && grid.is_near(&plate, row, column, far) {
                        cells.insert(cell);
                    }
                }
            }
        }
    }
}

fn add_piece(arm: &Arm, grid: &Grid, motion: &Motion, pad: u32, depth: u32, index: u32, cells: &mut CellSet) {
    let (links, count) = pose(arm, motion, depth, index);
    let links = &links[..count];
    if depth == 20 || spread(links) <= i64::from(SIDE) << 26 {
        add_leaf(arm, grid, links, pad, cells);
    } else {
        add_piece(arm, grid, motion, pad, depth + 1, 2 * index, cells);
        add_piece(arm, grid, motion, pad, depth + 1, 2 * index + 1, cells);
    }
}

fn sweep(arm: &Arm, grid: &Grid, motion: &Motion, pad: u32) -> CellSet {
    let mut cells = CellSet::new(grid.rows * grid.rows);
    add_piece(arm, grid, motion, pad, 0, 0, &mut cells);
    cells
}
