// The arithmetic of `enclose` and `spread` in plain Rust, for comparison: the same words give the same checksum.
use std::env;

include!("../plain/intervals.rs");

#[derive(Clone, Copy)]
#[allow(dead_code)]
struct LinkBox {
    direction: Plate,
    base: Plate,
    shift: Plate,
    tip: Plate,
}

struct Pose {
    links: [LinkBox; 6],
    count: u32,
}

struct Arm {
    lens: [u32; 6],
    count: u32,
}

struct Motion {
    from: [i32; 6],
    to: [i32; 6],
}

fn next(before: &Plate, base: &Plate, len: u32, t: Iv) -> LinkBox {
    let (c, s) = (cosines(t), sines(t));
    let direction = Plate {
        x: cut_unit(mul_sub2(before.x, c, before.y, s)),
        y: cut_unit(mul_add2(before.x, s, before.y, c)),
    };
    let shift = Plate { x: scale(direction.x, i64::from(len)), y: scale(direction.y, i64::from(len)) };
    let tip = Plate { x: add(base.x, shift.x), y: add(base.y, shift.y) };
    LinkBox { direction, base: *base, shift, tip }
}

#[inline(never)]
fn enclose(arm: &Arm, motion: &Motion, depth: u32, index: u32) -> Pose {
    let zero = Iv { lo: 0, hi: 0 };
    let origin = Plate { x: zero, y: zero };
    let mut direction = Plate { x: Iv { lo: UNIT, hi: UNIT }, y: zero };
    let mut tip = origin;
    let mut links = [LinkBox { direction: origin, base: origin, shift: origin, tip: origin }; 6];
    for k in 0..arm.count as usize {
        let t = joint_interval(motion.from[k], motion.to[k], depth, index);
        let link = next(&direction, &tip, arm.lens[k], t);
        direction = link.direction;
        tip = link.tip;
        links[k] = link;
    }
    Pose { links, count: arm.count }
}

fn spread(pose: &Pose) -> i64 {
    pose.links[..pose.count as usize].iter().fold(0, |most, link| most.max(link.tip.x.width().max(link.tip.y.width())))
}

fn main() {
    let words: Vec<u32> = env::args().skip(1).map(|word| word.parse().unwrap_or(0)).collect();
    let arm = Arm { lens: [600; 6], count: words[0].min(6) };
    let motion = Motion {
        from: [-3000, 500, -200, 1000, -700, 300],
        to: [2000, -900, 800, -1500, 60, -4000],
    };
    let mut sum: i64 = 0;
    for round in 0..words[1] {
        let pose = enclose(&arm, &motion, 10, round % 1024);
        sum = sum.wrapping_mul(31).wrapping_add(spread(&pose));
    }
    println!("{sum}");
}
