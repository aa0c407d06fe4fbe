//! Outline (the contour).

use crate::block::{pattern_where, size_allowed, Pattern};
use crate::{LENGTH, SIZE};

/// "The threshold from the four corner texture samples: their sum divided by 4, rounded down" (document 02, Ask 2). "A sample greater
/// than the threshold is marked" (document 01). The texture has n² bytes, row by row.
pub fn outline(n: usize, texture: &[u8]) -> Pattern {
    let corners = [(0, 0), (n - 1, 0), (0, n - 1), (n - 1, n - 1)];
    let sum: u32 = corners.iter().map(|&(x, y)| u32::from(texture[y * n + x])).sum();
    pattern_where(n, |x, y| u32::from(texture[y * n + x]) > sum / 4)
}

/// The outline of n² texture bytes. Refusals: 1, 2.
pub fn contour(n: usize, texture: &[u8]) -> Result<Pattern, u32> {
    if !size_allowed(n) {
        return Err(SIZE);
    }
    if texture.len() != n * n {
        return Err(LENGTH);
    }
    Ok(outline(n, texture))
}

#[cfg(test)]
mod tests {
    use super::*;
    use crate::block::{all_marked, transposed, transposed_pattern};
    use crate::random::Random;

    #[test]
    fn flat_texture_has_no_marks() {
        assert_eq!(contour(4, &[0; 16]), Ok([0; 4]));
        assert_eq!(contour(8, &[255; 64]), Ok([0; 4]));
        assert_eq!(contour(16, &[255; 256]), Ok([0; 4]));
    }

    /// A texture with one value in its corners and another elsewhere.
    fn cornered(n: usize, corner: u8, other: u8) -> Vec<u8> {
        let edge = |i: usize| i == 0 || i == n - 1;
        (0..n * n).map(|i| if edge(i % n) && edge(i / n) { corner } else { other }).collect()
    }

    #[test]
    fn the_threshold_comes_from_the_corners_alone() {
        assert_eq!(contour(4, &cornered(4, 100, 90)), Ok([0; 4]));
        assert_eq!(contour(4, &cornered(4, 90, 100)), Ok([0x6FF6, 0, 0, 0]));
        assert_eq!(contour(8, &cornered(8, 0, 1)), Ok([0x7EFF_FFFF_FFFF_FF7E, 0, 0, 0]));
        let all = u64::MAX;
        assert_eq!(contour(16, &cornered(16, 254, 255)), Ok([all ^ 0x8001, all, all, all ^ 0x8001 << 48]));
        let mut texture = cornered(4, 100, 90);
        texture[5] = 255;
        assert_eq!(contour(4, &texture), Ok([1 << 5, 0, 0, 0]));
    }

    #[test]
    fn the_threshold_is_rounded_down_and_not_itself_marked() {
        for (corner, marks) in [(7, 0), (8, 1), (9, 1), (10, 1), (11, 1)] {
            for place in [0, 3, 12, 15] {
                let mut texture = [7; 16];
                texture[place] = corner;
                assert_eq!(contour(4, &texture), Ok([marks << place, 0, 0, 0]));
            }
        }
        let mut texture = [7; 16];
        (texture[0], texture[5], texture[6]) = (11, 8, 9);
        assert_eq!(contour(4, &texture), Ok([1 << 6 | 1, 0, 0, 0]));
    }

    #[test]
    fn the_outline_of_16_has_marks_in_every_word() {
        let mut texture = [7; 256];
        for sample in [0, 63, 64, 254] {
            texture[sample] = 200;
        }
        assert_eq!(contour(16, &texture), Ok([1 << 63 | 1, 1, 0, 1 << 62]));
        let rising: Vec<u8> = (0..=255).collect();
        assert_eq!(contour(16, &rising), Ok([0, 0, u64::MAX, u64::MAX]));
    }

    #[test]
    fn an_outline_never_marks_all() {
        for n in [4, 8, 16] {
            for seed in 0..200 {
                let texture: Vec<u8> = Random(seed).bytes(n * n).iter().map(|byte| byte % 3).collect();
                assert_ne!(contour(n, &texture), Ok(all_marked(n)));
            }
        }
    }

    #[test]
    fn the_transposed_texture_has_the_transposed_outline() {
        for n in [4, 8, 16] {
            let texture = Random(3).bytes(n * n);
            let turned = transposed(n, &texture).unwrap();
            let pattern = contour(n, &texture).unwrap();
            assert_eq!(contour(n, &turned), Ok(transposed_pattern(n, &pattern)));
        }
    }

    #[test]
    fn refusals_in_order() {
        assert_eq!(contour(0, &[]), Err(1));
        assert_eq!(contour(5, &[0; 16]), Err(1));
        assert_eq!(contour(4, &[]), Err(2));
        assert_eq!(contour(4, &[0; 17]), Err(2));
        assert_eq!(contour(8, &[0; 63]), Err(2));
        assert_eq!(contour(12, &[0; 144]), Err(1));
        assert_eq!(contour(32, &[0; 1024]), Err(1));
        assert_eq!(contour(16, &[0; 64]), Err(2));
        assert_eq!(contour(16, &[0; 257]), Err(2));
    }
}
