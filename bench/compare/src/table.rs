//! Cases in columns, measured and printed.

use crate::case::{Case, Times};

/// Each row has a case for each column.
pub struct Table {
    title: &'static str,
    columns: Vec<String>,
    rows: Vec<Vec<Case>>,
}

impl Table {
    /// A table of the cases that `of` makes for each column.
    pub fn new<C: Copy>(
        title: &'static str,
        columns: &[C],
        label: impl Fn(C) -> String,
        of: impl Fn(C) -> Vec<Case>,
    ) -> Table {
        let mut rows: Vec<Vec<Case>> = Vec::new();
        for (place, &column) in columns.iter().enumerate() {
            for (number, case) in of(column).into_iter().enumerate() {
                if place == 0 {
                    rows.push(Vec::new());
                }
                rows[number].push(case);
            }
        }
        let columns = columns.iter().map(|&c| label(c)).collect();
        Table {
            title,
            columns,
            rows,
        }
    }

    /// All cases, row by row.
    pub fn cases(&mut self) -> impl Iterator<Item = &mut Case> {
        self.rows.iter_mut().flatten()
    }

    /// The case of this name in the last column.
    pub fn last(&self, name: &str) -> Option<&Case> {
        self.row(name)?.last()
    }

    /// The case of this name in the column with this head.
    pub fn case(&self, name: &str, head: &str) -> Option<&Case> {
        let place = self.columns.iter().position(|c| c == head)?;
        self.row(name)?.get(place)
    }

    fn row(&self, name: &str) -> Option<&Vec<Case>> {
        self.rows.iter().find(|row| row[0].name == name)
    }

    pub fn print(&self) {
        let line = |first: &str, cells: Vec<String>| {
            let line = format!("{first:36}|{}", cells.join("|"));
            println!("{}", line.trim_end());
        };
        println!("\n{}", self.title);
        let heads = self.columns.iter().map(|c| format!("{c:^23}"));
        line("", heads.collect());
        let units = format!("{:>7} {:>7} {:>6} ", "twin", "Rattle", "ratio");
        line("ns for one", vec![units; self.columns.len()]);
        for row in &self.rows {
            let cells = row.iter().map(|case| {
                let times @ Times { twin, rattle } = case.times();
                format!("{twin:7.0} {rattle:7.0} {:6.2} ", times.ratio())
            });
            line(&row[0].name, cells.collect());
        }
    }
}
