//! What a row of a table is about.

/// The forms that a step is measured in, in the order of the tables' columns. The first is what the others are compared
/// with.
pub const FORMS: [&str; 6] = [PROVED, EARLIER, PLAIN, PACKED, COLUMNS, SQLITE];
pub const PROVED: &str = "proved";
pub const EARLIER: &str = "earlier";
pub const PLAIN: &str = "plain Rust";
pub const PACKED: &str = "packed scan";
pub const COLUMNS: &str = "column scan";
pub const SQLITE: &str = "SQLite";

/// The step, what it is measured on, the unit that a time is given for, how many of them one input has, and for queries
/// what they find.
pub struct Step {
    pub name: String,
    pub on: String,
    pub unit: &'static str,
    pub units: usize,
    pub found: Option<Found>,
}

/// What a query finds on average.
#[derive(Clone, Copy)]
pub struct Found {
    pub records: f64,
    pub reads: f64,
}

impl Step {
    /// A step whose inputs are a call each.
    pub fn call(name: impl Into<String>, on: String) -> Step {
        Step::each(name, on, "call", 1)
    }

    /// A step whose inputs have so many units.
    pub fn each(name: impl Into<String>, on: String, unit: &'static str, units: usize) -> Step {
        Step { name: name.into(), on, unit, units, found: None }
    }

    /// The name, with the unit unless it is a call.
    pub fn label(&self) -> String {
        match self.unit {
            "call" => self.name.clone(),
            unit => format!("{}, each {unit}", self.name),
        }
    }
}
