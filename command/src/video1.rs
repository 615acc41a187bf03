//! Frames of Microsoft Video 1 whose size is no multiple of 8, as frames whose size is: the library
//! counts in blocks of 8x8 pixels, Video 1 in blocks of 4x4.

/// The most blocks that one code skips.
const MOST: usize = 1023;

/// A size in blocks of 4x4 pixels.
#[derive(Clone, Copy, Debug, PartialEq, Eq)]
pub struct Size {
    pub columns: usize,
    pub rows: usize,
}

/// The data of a frame of this size as that of one with an even number of columns and rows. It stands
/// at the left and at the top; the blocks at the right and in the row at the bottom, which comes first,
/// are skipped. It is judged as the frame itself would be: by the same refusal, or by none.
pub fn widened(size: Size, data: &[u8]) -> Vec<u8> {
    let (odd_column, odd_row) = (size.columns % 2, size.rows % 2);
    let wide = size.columns + odd_column;
    let (blocks, all) = (size.columns * size.rows, wide * (size.rows + odd_row));
    let place = |block: usize| block + block / size.columns * odd_column + odd_row * wide;
    let mut new = Widened { data: Vec::new(), at: 0 };
    let (mut rest, mut block) = (data, 0);
    while block < blocks {
        let Some((code, behind)) = next(rest) else {
            new.skip_to(place(block)); // a block that the data is too short for
            break;
        };
        match skipped(code) {
            Some(count) if block + count > blocks => {
                new.skip_to(all + 1); // as the code passes the last block
                break;
            }
            Some(count) => block += count,
            None => {
                new.skip_to(place(block));
                new.data.extend(code);
                new.at += 1;
                block += 1;
            }
        }
        rest = behind;
    }
    if block == blocks {
        new.skip_to(all);
    }
    new.data.extend(rest);
    new.data
}

/// The new data, and how many blocks it passes.
struct Widened {
    data: Vec<u8>,
    at: usize,
}

impl Widened {
    /// Skips the blocks up to this one.
    fn skip_to(&mut self, block: usize) {
        while self.at < block {
            let count = (block - self.at).min(MOST);
            self.data.extend([count as u8, 0x84 + (count >> 8) as u8]);
            self.at += count;
        }
    }
}

/// The first code of some data and what is behind it; none where the data is too short.
fn next(data: &[u8]) -> Option<(&[u8], &[u8])> {
    let length = match *data.get(1)? {
        ..0x80 => 4,
        0x90.. => 10,
        _ => 2,
    };
    data.split_at_checked(length)
}

/// How many blocks a code skips, where it does.
fn skipped(code: &[u8]) -> Option<usize> {
    match *code {
        [low, high @ 0x84..0x88] => Some(usize::from(high - 0x84) << 8 | usize::from(low)),
        _ => None,
    }
}

#[cfg(test)]
mod tests {
    use super::*;

    fn of(columns: usize, rows: usize, data: &[u8]) -> Vec<u8> {
        widened(Size { columns, rows }, data)
    }

    /// An even size is not changed.
    #[test]
    fn even() {
        let data = [7, 0x80, 1, 2, 3, 4, 1, 0x84, 9, 0x8F, 0, 0];
        assert_eq!(of(2, 2, &data), data);
    }

    /// One block becomes four: the row at the bottom is skipped, and the block at the right.
    #[test]
    fn one_block() {
        assert_eq!(of(1, 1, &[7, 0x80, 0, 0]), [2, 0x84, 7, 0x80, 1, 0x84, 0, 0]);
        assert_eq!(of(1, 1, &[1, 0x84, 0, 0]), [4, 0x84, 0, 0]);
    }

    /// Three columns: a skip that goes on in the next row has one block more.
    #[test]
    fn rows() {
        let data = [7, 0x80, 4, 0x84, 8, 0x80, 0, 0];
        assert_eq!(of(3, 2, &data), [7, 0x80, 5, 0x84, 8, 0x80, 1, 0x84, 0, 0]);
        let long = [0xFF, 0x87, 0xFF, 0x87, 0xE4, 0x84, 9, 0x80, 0, 0]; // 2,274 of 35 x 65
        let new = of(35, 65, &long);
        assert_eq!(new, [0xFF, 0x87, 0xFF, 0x87, 0x48, 0x85, 9, 0x80, 1, 0x84, 0, 0]);
    }

    /// What is wrong stays wrong in the same way: too short, a skip too far, no end mark.
    #[test]
    fn faults() {
        assert_eq!(of(1, 1, &[7]), [2, 0x84, 7]);
        assert_eq!(of(1, 1, &[7, 0x90, 1]), [2, 0x84, 7, 0x90, 1]);
        assert_eq!(of(1, 1, &[]), [2, 0x84]);
        assert_eq!(of(1, 1, &[2, 0x84, 0, 0]), [5, 0x84, 2, 0x84, 0, 0]);
        assert_eq!(of(1, 1, &[7, 0x80, 1, 2, 3]), [2, 0x84, 7, 0x80, 1, 0x84, 1, 2, 3]);
    }
}
