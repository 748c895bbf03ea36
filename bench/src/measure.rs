//! Times the forms of each step on the same inputs, all steps turn by turn, so that each is timed all the while that
//! the program runs. Inputs are cut into parts: a turn times one part, after another one that fills the caches. So no
//! input comes twice in a run, and the processor cannot learn what it will be asked.
use crate::clock;
use crate::step::{Step, PLAIN, PROVED};
use crate::tables::{self, Layout, Line, Time};
use std::fmt::Debug;
use std::hint::black_box;

/// How many turns there are, and into how many parts inputs are cut.
const TURNS: usize = 240;
const PARTS: usize = 4;

/// A form whose run lasts up to n times as many nanoseconds is timed in every nth turn, at least in every `RAREST`th.
const LONG_RUN: f64 = 1_000_000.0;
const RAREST: usize = 20;

/// One form of a step that reads: its name, and a sum of its answers to some inputs, with memory to write them to.
pub type Answers<I, M> = (&'static str, Box<dyn FnMut(&[I], &mut M) -> u64>);

/// One form of a step: its name, what makes a run of a part ready where the part before it does not, and the run.
pub struct Form {
    pub name: &'static str,
    pub ready: Option<Box<dyn FnMut(usize)>>,
    pub run: Box<dyn FnMut(usize) -> u64>,
}

/// The rows to be measured, in sections that have a table each.
pub struct Table {
    chosen: Vec<String>,
    sections: Vec<Section>,
}

struct Section {
    title: &'static str,
    layout: Layout,
    rows: Vec<Row>,
}

/// A step, how many units each part has, and the forms.
struct Row {
    step: Step,
    units: Vec<usize>,
    forms: Vec<(Form, Timing)>,
}

/// How a form is timed: in which turns it runs, and the times of a unit, part by part.
#[derive(Default)]
struct Timing {
    every: usize,
    times: Vec<Vec<f64>>,
}

/// A form by how it answers one input.
pub fn answers<I, M>(
    name: &'static str,
    mut answer: impl FnMut(&I, &mut M) -> u64 + 'static,
) -> Answers<I, M> {
    let all = move |inputs: &[I], memory: &mut M| {
        inputs.iter().fold(0, |sum: u64, input| sum.wrapping_add(answer(input, memory)))
    };
    (name, Box::new(all))
}

impl Table {
    /// A table of the steps whose name or section has one of these words; of all steps if there is no word.
    pub fn new(chosen: Vec<String>) -> Table {
        Table { chosen, sections: Vec::new() }
    }

    /// Begins a section.
    pub fn section(&mut self, title: &'static str, layout: Layout) {
        self.sections.push(Section { title, layout, rows: Vec::new() });
    }

    /// Whether the present section's steps of this name are measured.
    pub fn has(&self, name: &str) -> bool {
        let title = self.sections.last().expect("a section is begun").title;
        self.chosen.is_empty() || self.chosen.iter().any(|word| name.contains(word) || title.contains(word))
    }

    /// Adds a row of a proved and a plain form.
    pub fn pair<I, M: Clone + Debug + PartialEq + 'static>(
        &mut self,
        step: Step,
        inputs: &'static [I],
        memory: M,
        proved: impl FnMut(&I, &mut M) -> u64 + 'static,
        plain: impl FnMut(&I, &mut M) -> u64 + 'static,
    ) {
        self.compared(step, inputs, memory, vec![answers(PROVED, proved), answers(PLAIN, plain)]);
    }

    /// Adds a row of several forms. The sum of their answers, and what each leaves in its memory, have to be the same
    /// for all.
    pub fn compared<I, M: Clone + Debug + PartialEq + 'static>(
        &mut self,
        step: Step,
        inputs: &'static [I],
        memory: M,
        mut forms: Vec<Answers<I, M>>,
    ) {
        if !self.has(&step.name) {
            return;
        }
        let mut first = None;
        for (name, all) in &mut forms {
            let mut own = memory.clone();
            let result = (all(inputs, &mut own), own);
            let same = first.get_or_insert_with(|| result.clone()) == &result;
            assert!(same, "{}, {}: {name} does something else than the first form", step.name, step.on);
        }
        self.answering(step, inputs, memory, forms);
    }

    /// Adds a row of several forms, each on memory of its own.
    pub fn answering<I, M: Clone + 'static>(
        &mut self,
        step: Step,
        inputs: &'static [I],
        memory: M,
        forms: Vec<Answers<I, M>>,
    ) {
        let parts: Vec<&'static [I]> = inputs.chunks(inputs.len().div_ceil(PARTS)).collect();
        let form = |(name, mut all): Answers<I, M>| {
            let (mut own, parts) = (memory.clone(), parts.clone());
            Form { name, ready: None, run: Box::new(move |part| all(parts[part], &mut own)) }
        };
        let forms = forms.into_iter().map(form).collect();
        self.push(step, parts.iter().map(|part| part.len()), forms);
    }

    /// Adds a row of forms that change their memory, with so many inputs in each part. The sums of their answers have
    /// to be the same for all.
    pub fn changing(&mut self, step: Step, inputs: &[usize], mut forms: Vec<Form>) {
        if !self.has(&step.name) {
            return;
        }
        for part in 0..inputs.len() {
            let mut sums = forms.iter_mut().map(|form| form.made_ready(part, inputs.len())(part));
            let first = sums.next();
            assert!(sums.all(|sum| Some(sum) == first), "{}, {}: different answers", step.name, step.on);
        }
        self.push(step, inputs.iter().copied(), forms);
    }

    fn push(&mut self, step: Step, inputs: impl Iterator<Item = usize>, forms: Vec<Form>) {
        let units: Vec<usize> = inputs.map(|inputs| inputs * step.units).collect();
        let timing = || Timing { every: 1, times: vec![vec![]; units.len()] };
        let forms = forms.into_iter().map(|form| (form, timing())).collect();
        self.sections.last_mut().expect("a section is begun").rows.push(Row { step, units, forms });
    }

    /// The sections that have rows.
    fn chosen_sections(self) -> Vec<Section> {
        let sections: Vec<_> = self.sections.into_iter().filter(|section| !section.rows.is_empty()).collect();
        assert!(!sections.is_empty(), "no table or step has one of the words {:?}", self.chosen);
        sections
    }

    /// Measures all rows and prints them.
    pub fn measure(self) {
        let mut sections = self.chosen_sections();
        let mut rows: Vec<&mut Row> = sections.iter_mut().flat_map(|section| &mut section.rows).collect();
        for Row { units, forms, .. } in &mut rows {
            forms.iter_mut().for_each(|(form, timing)| timing.prepare(form, units));
        }
        for turn in 0..TURNS {
            for Row { units, forms, .. } in &mut rows {
                // another form each time is the first, which finds the store's memory out of the cache
                forms.rotate_left(1);
                for (form, timing) in forms.iter_mut().filter(|(_, timing)| turn % timing.every == 0) {
                    timing.run(form, turn / timing.every, units);
                }
            }
        }
        for Section { title, layout, rows } in sections {
            tables::print(title, layout, &rows.into_iter().map(Row::line).collect::<Vec<_>>());
        }
    }

    /// Runs the first part of each form by itself, for a tool that counts instructions, and prints a line for each:
    /// section, step, what it is measured on, form and units, with tabs between.
    pub fn count(self) {
        for Section { title, rows, .. } in self.chosen_sections() {
            for Row { step, units, forms } in rows {
                for (mut form, _) in forms {
                    black_box(counted(form.made_ready(0, units.len())));
                    println!("{title}\t{}\t{}\t{}\t{}", step.label(), step.on, form.name, units[0]);
                }
            }
        }
    }
}

/// A run of the first part, in a function that can be told from the rest by its name.
#[inline(never)]
fn counted(run: &mut dyn FnMut(usize) -> u64) -> u64 {
    black_box(run(0))
}

impl Form {
    /// The run, ready for one of so many parts.
    fn made_ready(&mut self, part: usize, parts: usize) -> &mut dyn FnMut(usize) -> u64 {
        match &mut self.ready {
            Some(ready) => ready(part),
            None => _ = black_box((self.run)((part + parts - 1) % parts)),
        }
        &mut self.run
    }
}

impl Row {
    fn line(self) -> Line {
        let Row { step, units, forms } = self;
        let times = forms.into_iter().map(|(form, timing)| timing.best(form.name, &units)).collect();
        Line { step, times }
    }
}

impl Timing {
    /// Finds out how long it takes to make a run ready and to run it.
    fn prepare(&mut self, form: &mut Form, units: &[usize]) {
        let start = clock::now();
        black_box(form.made_ready(0, units.len())(0));
        self.every = (((clock::now() - start) / LONG_RUN).ceil() as usize).min(RAREST);
    }

    /// Times one run, of the next part.
    fn run(&mut self, form: &mut Form, turn: usize, units: &[usize]) {
        let part = turn % units.len();
        let run = form.made_ready(part, units.len());
        let start = clock::now();
        black_box(run(part));
        self.times[part].push((clock::now() - start) / units[part] as f64);
    }

    /// The best time of a unit of each part, on average, and how far the median is above it.
    fn best(mut self, form: &'static str, units: &[usize]) -> Time {
        self.times.iter_mut().for_each(|times| times.sort_by(f64::total_cmp));
        let average = |chosen: fn(&[f64]) -> f64| {
            let timed = self.times.iter().zip(units).filter(|(times, _)| !times.is_empty());
            let sum = |(time, all), (times, &units): (&Vec<f64>, &usize)| {
                (time + chosen(times) * units as f64, all + units as f64)
            };
            let (time, all) = timed.fold((0.0, 0.0), sum);
            time / all
        };
        let (best, median) = (average(|times| times[0]), average(|times| times[times.len() / 2]));
        Time { form, best, spread: (median / best - 1.0) * 100.0 }
    }
}
