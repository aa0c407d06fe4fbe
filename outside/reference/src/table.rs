//! Depth table. "1 to 256 depth values, each 0 to 255, strictly rising."

use crate::TABLE;

/// Whether the table has 1 to 256 values and they rise strictly.
pub fn sound(table: &[u8]) -> bool {
    (1..=256).contains(&table.len()) && table.windows(2).all(|pair| pair[0] < pair[1])
}

/// "The index of a depth d is that of the nearest table value; of two equally near, the greater value."
/// The table is sound; a later value is a greater one, so it wins when it is as near.
pub fn nearest_index(table: &[u8], depth: u8) -> usize {
    let mut nearest = 0;
    for index in 1..table.len() {
        if table[index].abs_diff(depth) <= table[nearest].abs_diff(depth) {
            nearest = index;
        }
    }
    nearest
}

/// The depth index of a depth value. Refusal: 3.
pub fn index_of(table: &[u8], depth: u8) -> Result<usize, u32> {
    if !sound(table) {
        return Err(TABLE);
    }
    Ok(nearest_index(table, depth))
}

/// A table of so many values spread over 0 to 255 for tests and cases: the first is 0 and, where there are more, the last 255.
pub fn spread_table(count: usize) -> Vec<u8> {
    (0..count).map(|i| (i * 255 / (count - 1).max(1)) as u8).collect()
}

#[cfg(test)]
mod tests {
    use super::*;

    #[test]
    fn stated_indices() {
        let table = [100, 128, 140];
        for (depth, index) in [(113, 0), (114, 1), (134, 2), (255, 2), (0, 0), (133, 1)] {
            assert_eq!(index_of(&table, depth), Ok(index));
        }
    }

    #[test]
    fn every_depth_has_its_own_index_in_the_full_table() {
        let table: Vec<u8> = (0..=255).collect();
        for depth in 0..=255 {
            assert_eq!(index_of(&table, depth), Ok(depth as usize));
        }
    }

    #[test]
    fn nearest_by_the_definition() {
        let table = [3, 4, 9, 10, 77, 200, 254];
        for depth in 0..=255u8 {
            let index = index_of(&table, depth).unwrap();
            let distance = table[index].abs_diff(depth);
            for (other, value) in table.iter().enumerate() {
                assert!(value.abs_diff(depth) >= distance);
                assert!(other <= index || value.abs_diff(depth) > distance);
            }
        }
    }

    #[test]
    fn refusals() {
        let full: Vec<u8> = (0..=255).collect();
        let long: Vec<u8> = (0..257).map(|i| (i % 256) as u8).collect();
        assert!(sound(&[9]) && sound(&full));
        for table in [&[][..], &[5, 5], &[7, 6], &[0, 1, 2, 2], &long] {
            assert_eq!(index_of(table, 9), Err(3));
        }
    }
}
