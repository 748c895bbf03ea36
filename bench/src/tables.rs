//! The tables of times, in Markdown.
use crate::numbers::{ratio, shown};
use crate::step::{Step, FORMS};

/// What a table has columns for.
#[derive(Clone, Copy)]
pub enum Layout {
    /// the forms of a step; a line is of one step
    Forms,
    /// what a step is measured on; a cell has the first form's time and its ratios to the others
    Inputs,
}

/// A step and the times of its forms.
pub struct Line {
    pub step: Step,
    pub times: Vec<Time>,
}

/// The best time of a form in nanoseconds, and by how many percent the median is above it.
pub struct Time {
    pub form: &'static str,
    pub best: f64,
    pub spread: f64,
}

/// Prints the table of a section.
pub fn print(title: &str, layout: Layout, lines: &[Line]) {
    let measured = |form: &&str| lines.iter().any(|line| line.time(form).is_some());
    let forms: Vec<&str> = FORMS.into_iter().filter(measured).collect();
    match layout {
        Layout::Forms => {
            println!("\n## {title}");
            by_forms(&forms, lines);
        }
        Layout::Inputs => {
            println!(
                "\n## {title}: {} and its ratios to {} ({})",
                forms[0],
                forms[1..].join(", "),
                spread(lines)
            );
            by_inputs(&forms, lines);
        }
    }
}

/// Prints a table with these columns.
pub fn print_head(cells: &[String]) {
    print_row(cells);
    println!("|{}", "---|".repeat(cells.len()));
}

pub fn print_row(cells: &[String]) {
    println!("| {} |", cells.join(" | "));
}

/// Different texts in the order in which they first come.
fn distinct(texts: impl Iterator<Item = String>) -> Vec<String> {
    let mut all = Vec::new();
    for text in texts {
        if !all.contains(&text) {
            all.push(text);
        }
    }
    all
}

/// A line for each step: the first form's time and spread, the others' times with the ratio to each.
fn by_forms(forms: &[&str], lines: &[Line]) {
    let head = [&["step", "records", "pages", forms[0], "spread"], &forms[1..]].concat();
    print_head(&head.into_iter().map(String::from).collect::<Vec<_>>());
    for line in lines {
        let &Time { best, spread, .. } = line.first();
        let [records, pages] = match line.step.found {
            Some(found) => [found.records, found.reads].map(shown),
            None => ["–", "–"].map(String::from),
        };
        let mut cells = vec![line.step.label(), records, pages, shown(best), format!("+{spread:.0} %")];
        let other = |time: &Time| format!("{} ({})", shown(time.best), ratio(best / time.best));
        cells.extend(forms[1..].iter().map(|form| line.time(form).map_or("–".into(), other)));
        print_row(&cells);
    }
}

/// A line for each step, a column for each thing that it is measured on, and one for the time as it depends on the
/// pages read.
fn by_inputs(forms: &[&str], lines: &[Line]) {
    let inputs = distinct(lines.iter().map(|line| line.step.on.clone()));
    let reading = lines.iter().any(|line| line.step.found.is_some());
    let mut head = [vec!["step".into()], inputs.clone()].concat();
    head.extend(reading.then(|| "by pages read".into()));
    print_head(&head);
    for label in distinct(lines.iter().map(|line| line.step.label())) {
        let own: Vec<&Line> = lines.iter().filter(|line| line.step.label() == label).collect();
        let cell = |input: &String| own.iter().find(|line| line.step.on == *input);
        let mut cells = vec![label];
        cells.extend(inputs.iter().map(|input| cell(input).map_or("–".into(), |line| line.cell(forms))));
        cells.extend(reading.then(|| by_reads(&own)));
        print_row(&cells);
    }
}

/// How the first form's spreads are.
fn spread(lines: &[Line]) -> String {
    let mut all: Vec<f64> = lines.iter().map(|line| line.first().spread).collect();
    all.sort_by(f64::total_cmp);
    format!("spread +{:.0} % in the middle, +{:.0} % at most", all[all.len() / 2], all[all.len() - 1])
}

impl Line {
    /// The time that the others are compared with.
    fn first(&self) -> &Time {
        self.time(FORMS[0]).expect("every step has the first form")
    }

    fn time(&self, form: &str) -> Option<&Time> {
        self.times.iter().find(|time| time.form == form)
    }

    /// The first form's time, and its ratios to the others.
    fn cell(&self, forms: &[&str]) -> String {
        let best = self.first().best;
        let to = |form: &&str| self.time(form).map_or("–".into(), |time| ratio(best / time.best));
        let ratios: Vec<String> = forms[1..].iter().map(to).collect();
        format!("{} ({})", shown(best), ratios.join(", "))
    }
}

/// The first form's time as the sum of a fixed part and one for each page read, for queries that read unlike numbers of
/// pages, and from how many to how many these are.
fn by_reads(lines: &[&Line]) -> String {
    let point = |line: &&Line| Some((line.step.found?.reads, line.first().best));
    let points: Vec<(f64, f64)> = lines.iter().filter_map(point).collect();
    let Some((fixed, each)) = fitted(&points) else {
        return "–".into();
    };
    let least = points.iter().map(|point| point.0).fold(f64::INFINITY, f64::min);
    let most = points.iter().map(|point| point.0).fold(0.0, f64::max);
    format!("{} + {} each, {} to {}", shown(fixed), shown(each), shown(least), shown(most))
}

/// The line fixed + each * x that is nearest to the points (x, y), by the squares of the deviations relative to y; none
/// if all have one x.
fn fitted(points: &[(f64, f64)]) -> Option<(f64, f64)> {
    let sum = |term: fn(f64, f64) -> f64| points.iter().map(|&(x, y)| term(x, y) / (y * y)).sum::<f64>();
    let (n, x, y) = (sum(|_, _| 1.0), sum(|x, _| x), sum(|_, y| y));
    let (xx, xy) = (sum(|x, _| x * x), sum(|x, y| x * y));
    let spread = n * xx - x * x;
    let each = (n * xy - x * y) / spread;
    (spread > 1e-9 * n * xx).then_some(((y - each * x) / n, each))
}
