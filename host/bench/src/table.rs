//! Tables in Markdown, and targets.

/// A line of a table: the nanoseconds of ours and of what stands beside it.
pub struct Row {
    pub what: String,
    pub pattern: String,
    pub ours: f64,
    pub other: f64,
}

impl Row {
    /// How many times as fast as the other ours is.
    pub fn ratio(&self) -> f64 {
        self.other / self.ours
    }
}

/// Prints a table of rows under a title and what is to be said of them.
pub fn print(title: &str, about: &str, rows: &[Row]) {
    println!("\n## {title}\n\n{about}\n");
    println!("| what | pattern | ours | other | ratio |\n|---|---|---:|---:|---:|");
    for row in rows {
        println!(
            "| {} | {} | {} | {} | {:.2} |",
            row.what,
            row.pattern,
            time(row.ours),
            time(row.other),
            row.ratio()
        );
    }
}

/// Nanoseconds with three digits and a fitting unit.
pub fn time(nanoseconds: f64) -> String {
    let units = [(1e9, "s"), (1e6, "ms"), (1e3, "µs")];
    let (size, unit) = units
        .into_iter()
        .find(|&(size, _)| nanoseconds >= size)
        .unwrap_or((1.0, "ns"));
    let value = nanoseconds / size;
    let digits = if value < 10.0 {
        2
    } else {
        usize::from(value < 100.0)
    };
    format!("{value:.digits$} {unit}")
}

/// A sentence, the least ratio that it wants, and the ratios of the rows it is about.
pub struct Target {
    sentence: &'static str,
    wanted: f64,
    ratios: Vec<f64>,
}

impl Target {
    pub fn new<'a>(
        sentence: &'static str,
        wanted: f64,
        rows: impl IntoIterator<Item = &'a Row>,
    ) -> Target {
        let ratios = rows.into_iter().map(Row::ratio).collect();
        Target {
            sentence,
            wanted,
            ratios,
        }
    }

    fn print(&self) {
        let lowest = self.ratios.iter().copied().fold(f64::INFINITY, f64::min);
        let met = self.ratios.iter().filter(|&&r| r >= self.wanted).count();
        let all = self.ratios.len();
        let verdict = if met == all { "yes" } else { "no" };
        println!(
            "| {} | {:.2} | {lowest:.2} | {met} of {all} | {verdict} |",
            self.sentence, self.wanted
        );
    }
}

/// Prints the targets; one is met if all its rows are.
pub fn print_targets(targets: &[Target]) {
    println!("\n## Targets\n\nA target is met if every row that it is about has at least the wanted ratio.\n");
    println!("| target | wanted ratio | lowest ratio | rows that meet it | met |\n|---|---:|---:|---:|---|");
    targets.iter().for_each(Target::print);
}
