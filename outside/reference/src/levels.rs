//! "If one whole number is added to every border sample, every table value and every original sample of a block, and all stay within 0
//! to 255" (document 02, Ask 8): the three, and the addition. List, count, reach and texture are kept; the tests and the cases of the
//! law use it.

/// The samples with the number added to each, which may be negative; none where a sum is outside 0 to 255.
pub fn raised(samples: &[u8], by: i32) -> Option<Vec<u8>> {
    samples.iter().map(|&sample| u8::try_from(i32::from(sample) + by).ok()).collect()
}

/// Border, original and table of a block.
#[derive(Clone, Debug, PartialEq, Eq)]
pub struct Levels {
    pub border: Vec<u8>,
    pub original: Vec<u8>,
    pub table: Vec<u8>,
}

impl Levels {
    /// The three with the number added; none where a sum is outside 0 to 255.
    pub fn raised(&self, by: i32) -> Option<Levels> {
        Some(Levels {
            border: raised(&self.border, by)?,
            original: raised(&self.original, by)?,
            table: raised(&self.table, by)?,
        })
    }

    /// The least and the greatest number that can be added: the one makes a sample or value 0, the other 255.
    pub fn room(&self) -> (i32, i32) {
        let all = [&self.border[..], &self.original, &self.table].concat();
        let (least, greatest) = (all.iter().min().unwrap(), all.iter().max().unwrap());
        (-i32::from(*least), 255 - i32::from(*greatest))
    }
}

#[cfg(test)]
mod tests {
    use super::*;

    #[test]
    fn a_number_of_either_sign_is_added_up_to_the_ends() {
        assert_eq!(raised(&[3, 250, 100], -3), Some(vec![0, 247, 97]));
        assert_eq!(raised(&[3, 250, 100], 5), Some(vec![8, 255, 105]));
        assert_eq!([-4, 6, -256, 256].map(|by| raised(&[3, 250, 100], by)), [None, None, None, None]);
    }

    #[test]
    fn the_room_is_that_of_all_three() {
        let levels = |border: u8, original: u8, table: u8| Levels {
            border: vec![border, 100],
            original: vec![100, original],
            table: vec![table],
        };
        for (border, original, table, room) in
            [(9, 120, 110, (-9, 135)), (120, 9, 250, (-9, 5)), (255, 90, 7, (-7, 0)), (0, 101, 102, (0, 153))]
        {
            let here = levels(border, original, table);
            assert_eq!(here.room(), room);
            assert!(here.raised(room.0).is_some() && here.raised(room.1).is_some());
            assert_eq!((here.raised(room.0 - 1), here.raised(room.1 + 1)), (None, None));
        }
    }
}
