//! Tables as text.

/// A table; its first column is set to the left, the others to the right.
pub struct Table {
    rows: Vec<Vec<String>>,
}

impl Table {
    /// A table with this heading.
    pub fn new(heading: Vec<String>) -> Table {
        Table { rows: vec![heading] }
    }

    /// Adds a row, of as many cells as the heading has.
    pub fn row(&mut self, cells: Vec<String>) {
        assert_eq!(cells.len(), self.rows[0].len(), "a cell a column");
        self.rows.push(cells);
    }

    /// The table in columns, or as Markdown has it.
    pub fn text(&self, markdown: bool) -> String {
        let columns = 0..self.rows[0].len();
        let width = |column: usize| self.rows.iter().map(|row| row[column].chars().count()).max();
        let widths: Vec<usize> = columns.map(|column| width(column).unwrap_or(0)).collect();
        let mut lines: Vec<String> =
            self.rows.iter().map(|row| line(row, &widths, markdown)).collect();
        if markdown {
            let right = "---:|".repeat(widths.len() - 1);
            lines.insert(1, format!("|---|{right}"));
        }
        lines.join("\n")
    }
}

fn line(row: &[String], widths: &[usize], markdown: bool) -> String {
    let cells = row.iter().zip(widths).enumerate().map(|(column, (cell, &width))| match column {
        0 => format!("{cell:<width$}"),
        _ => format!("{cell:>width$}"),
    });
    let cells: Vec<String> = cells.collect();
    if markdown {
        format!("| {} |", cells.join(" | "))
    } else {
        cells.join("  ")
    }
}

/// A number with so many decimals.
pub fn number(value: f64, decimals: usize) -> String {
    format!("{value:.decimals$}")
}

#[cfg(test)]
mod tests {
    use super::*;

    #[test]
    fn texts() {
        let mut table = Table::new(["kind", "ns"].map(str::to_owned).into());
        table.row(vec!["mix".to_owned(), number(12.345, 2)]);
        table.row(vec!["0".to_owned(), number(1.0, 2)]);
        assert_eq!(table.text(false), "kind     ns\nmix   12.35\n0      1.00");
        assert_eq!(
            table.text(true),
            "| kind |    ns |\n|---|---:|\n| mix  | 12.35 |\n| 0    |  1.00 |"
        );
    }
}
