//! Tables of aligned columns.

use crate::terminal::tail;

/// Between two columns.
const GAP: &str = "  ";
/// The first column keeps so many characters, however narrow the terminal is.
const LEAST: usize = 8;

/// A table. The first column is aligned left and is cut where the table would be wider than this; the
/// others are aligned right.
pub fn table<const COLUMNS: usize>(rows: &[[String; COLUMNS]], widest: Option<usize>) -> String {
    let width =
        |column: usize| rows.iter().map(|row| row[column].chars().count()).max().unwrap_or(0);
    let mut widths: [usize; COLUMNS] = std::array::from_fn(width);
    let others: usize = widths[1..].iter().map(|width| GAP.len() + width).sum();
    let room = widest.map_or(usize::MAX, |widest| widest.saturating_sub(others).max(LEAST));
    widths[0] = widths[0].min(room);
    rows.iter().map(|row| line(row, &widths)).collect()
}

fn line(row: &[String], widths: &[usize]) -> String {
    let first = tail(&row[0], widths[0]);
    let mut line = format!("{first:<0$}", widths[0]);
    for (cell, width) in row.iter().zip(widths).skip(1) {
        line.push_str(&format!("{GAP}{cell:>width$}"));
    }
    line + "\n"
}

#[cfg(test)]
mod tests {
    use super::*;

    fn row(cells: [&str; 3]) -> [String; 3] {
        cells.map(String::from)
    }

    #[test]
    fn aligned() {
        let rows = [row(["FILM", "N", "WHAT"]), row(["é", "100", "a b"])];
        assert_eq!(table(&rows, None), "FILM    N  WHAT\né     100   a b\n");
        assert_eq!(table::<3>(&[], Some(80)), "");
    }

    /// 60 columns are full: 54 letters, two gaps and a letter in each of the other columns. Without a
    /// terminal nothing is cut, and a narrow one leaves 8 letters.
    #[test]
    fn cut() {
        let long = "x".repeat(54);
        let rows = [row([&format!("yz{long}"), "a", "b"])];
        assert_eq!(table(&[row([&long, "a", "b"])], Some(60)), format!("{long}  a  b\n"));
        assert_eq!(table(&rows, Some(60)), format!("…{}  a  b\n", &long[..53]));
        assert_eq!(table(&rows, None), format!("yz{long}  a  b\n"));
        assert_eq!(table(&rows, Some(3)), "…xxxxxxx  a  b\n");
    }
}
