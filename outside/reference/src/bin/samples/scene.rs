//! A made-up depth picture: a figure, a ball and a box on the floor of a room with a slanted wall. A greater
//! depth is nearer, and each sample has the depth of the nearest surface, rounded down. All depths here are
//! inverse distances, so that a plane of the room is a plane over the picture.

/// Width and height.
pub const SIDE: usize = 128;

/// The row of the eye's height: the floor would end there if no wall stood before it.
const HORIZON: i64 = 36;

/// The depths that a record can name: 32 values from 66 to 227, about equally spaced.
pub fn table() -> Vec<u8> {
    (0..32).map(|k| (66 + k * 26 / 5) as u8).collect()
}

/// The samples, row by row.
pub fn original() -> Vec<u8> {
    let side = SIDE as i64;
    (0..side * side).map(|i| depth(i % side, i / side) as u8).collect()
}

/// The depth of the nearest surface at (x, y).
fn depth(x: i64, y: i64) -> i64 {
    let things = [carton(x, y), ball(x, y), figure(x, y)];
    things.into_iter().flatten().fold(floor(y).max(wall(x)), i64::max)
}

/// The floor rises towards the eye.
fn floor(y: i64) -> i64 {
    (y - HORIZON) * 5 / 2
}

/// The wall recedes to the right; it meets the floor where both are equally near.
fn wall(x: i64) -> i64 {
    120 - x * 5 / 12
}

/// The value on the straight line from (x0, v0) to (x1, v1) at x.
fn between(x: i64, (x0, v0): (i64, i64), (x1, v1): (i64, i64)) -> i64 {
    v0 + (v1 - v0) * (x - x0) / (x1 - x0)
}

/// The box, seen from above its lid and with a corner in front: two faces and the lid.
fn carton(x: i64, y: i64) -> Option<i64> {
    let (left, front, right) = ((80, 140), (94, 165), (120, 142));
    if !(left.0..=right.0).contains(&x) {
        return None;
    }
    let face = if x < front.0 { between(x, left, front) } else { between(x, front, right) };
    let (rim, foot) = (HORIZON + face / 5, HORIZON + face * 2 / 5);
    let back = if x < 104 { between(x, (80, 64), (104, 60)) } else { between(x, (104, 60), (120, 64)) };
    if (rim..=foot).contains(&y) {
        Some(face)
    } else if (back..rim).contains(&y) {
        Some((y - HORIZON) * 5)
    } else {
        None
    }
}

/// The ball, round towards the eye.
fn ball(x: i64, y: i64) -> Option<i64> {
    let (dx, dy) = (x - 58, y - 95);
    let inside = 17 * 17 - dx * dx - dy * dy;
    (inside >= 0).then(|| 190 + inside.isqrt() * 29 / 17)
}

/// The figure, flat, an arm raised.
fn figure(x: i64, y: i64) -> Option<i64> {
    let head = limb((x, y), (28, 29), (28, 31), 7);
    let body = limb((x, y), (28, 48), (28, 64), 9);
    let arms = limb((x, y), (21, 46), (12, 66), 3) || limb((x, y), (35, 46), (48, 30), 3);
    let legs = limb((x, y), (24, 70), (21, 100), 4) || limb((x, y), (32, 70), (37, 100), 4);
    (head || body || arms || legs).then_some(170)
}

/// Whether (x, y) is at most `reach` away from the line between two points, ends included.
fn limb((x, y): (i64, i64), from: (i64, i64), to: (i64, i64), reach: i64) -> bool {
    let (along_x, along_y) = (to.0 - from.0, to.1 - from.1);
    let (dx, dy) = (x - from.0, y - from.1);
    let square = along_x * along_x + along_y * along_y;
    let part = (dx * along_x + dy * along_y).clamp(0, square);
    let (off_x, off_y) = (dx * square - part * along_x, dy * square - part * along_y);
    off_x * off_x + off_y * off_y <= (reach * square) * (reach * square)
}

#[cfg(test)]
mod tests {
    use super::*;

    #[test]
    fn every_depth_is_a_byte_and_near_a_table_value() {
        for i in 0..(SIDE * SIDE) as i64 {
            let depth = depth(i % SIDE as i64, i / SIDE as i64);
            assert!((0..=255).contains(&depth));
            assert!(table().iter().any(|&value| (value as i64 - depth).abs() <= 3), "{depth}");
        }
    }

    #[test]
    fn the_table_has_32_rising_values() {
        let table = table();
        assert_eq!((table.len(), table[0], table[31]), (32, 66, 227));
        assert!(table.windows(2).all(|pair| pair[0] < pair[1]));
    }

    #[test]
    fn a_limb_is_round_at_its_ends() {
        assert!(limb((0, -3), (0, 0), (0, 10), 3) && !limb((0, -4), (0, 0), (0, 10), 3));
        assert!(limb((3, 5), (0, 0), (0, 10), 3) && !limb((3, -1), (0, 0), (0, 10), 3));
    }
}
