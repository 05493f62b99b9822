//! The bars, and whether they are met.

use crate::calls::Call;
use crate::messages;
use crate::table::{Row, Table};
use std::fmt;

enum Limit {
    AtLeast(f64),
    AtMost(f64),
}

pub struct Bar {
    what: String,
    limit: Limit,
    unit: &'static str,
    figure: f64,
}

impl Bar {
    pub fn is_met(&self) -> bool {
        match self.limit {
            Limit::AtLeast(limit) => self.figure >= limit,
            Limit::AtMost(limit) => self.figure <= limit,
        }
    }
}

impl fmt::Display for Bar {
    fn fmt(&self, f: &mut fmt::Formatter<'_>) -> fmt::Result {
        let (words, limit) = match self.limit {
            Limit::AtLeast(limit) => ("at least", limit),
            Limit::AtMost(limit) => ("at most", limit),
        };
        let met = if self.is_met() { "met" } else { "missed" };
        let Bar {
            what, unit, figure, ..
        } = self;
        write!(f, "{what} {words} {limit} {unit}: {met} ({figure:.2})")
    }
}

fn largest<'t>(rows: impl Iterator<Item = &'t Row>, figure: impl Fn(&Row) -> f64) -> f64 {
    rows.map(figure).fold(f64::NAN, f64::max)
}

pub fn bars(table: &Table) -> Vec<Bar> {
    let mut bars = Vec::from(lookups(table));
    bars.extend(exchanges(table));
    bars.extend([Call::Open, Call::Retire].map(|call| single_call(table, call)));
    bars.push(Bar {
        what: "the worst place in memory takes".to_string(),
        limit: Limit::AtMost(1.3),
        unit: "times the median",
        figure: table.worst_place / table.median_place,
    });
    bars.push(message(table));
    bars
}

fn message(table: &Table) -> Bar {
    let [read_and_walked, _] = &table.readings;
    Bar {
        what: format!(
            "a message of {} bytes with {} fields, read and walked, takes",
            messages::LENGTH,
            messages::FIELDS.len()
        ),
        limit: Limit::AtMost(2.0),
        unit: "times the reference",
        figure: read_and_walked.library / read_and_walked.reference,
    }
}

fn lookups(table: &Table) -> [Bar; 2] {
    let [own_homes, one_home] = &table.lookups;
    [
        Bar {
            what: "a lookup by home, where each ticket has its own, is".to_string(),
            limit: Limit::AtLeast(5.0),
            unit: "times as fast as the walk",
            figure: own_homes.walk / own_homes.home,
        },
        Bar {
            what: "a lookup by home, where all tickets share one, takes".to_string(),
            limit: Limit::AtMost(1.5),
            unit: "times the walk",
            figure: one_home.home / one_home.walk,
        },
    ]
}

fn exchanges(table: &Table) -> [Bar; 2] {
    let what = "a whole exchange, moving or staying, takes at every depth";
    [
        Bar {
            what: what.to_string(),
            limit: Limit::AtMost(0.3),
            unit: "percent of one opening",
            figure: 100.0 * largest(table.exchanges(), |row| table.share(row)),
        },
        Bar {
            what: what.to_string(),
            limit: Limit::AtMost(1.1),
            unit: "times the reference",
            figure: largest(table.exchanges(), Row::to_reference),
        },
    ]
}

fn single_call(table: &Table, call: Call) -> Bar {
    let rows = table.rows.iter().filter(|row| row.line.call == call);
    Bar {
        what: format!("{} takes at every depth", call.name()),
        limit: Limit::AtMost(3.0),
        unit: "times the reference",
        figure: largest(rows, Row::to_reference),
    }
}

/// What `--check` does not look at. Report counts the pending exchanges in the table, of which the
/// reference keeps the number: docs/DECISIONS.md, "Hosts".
pub fn goals(table: &Table) -> [Bar; 2] {
    let exchange = Bar {
        what: "a whole exchange takes at every depth".to_string(),
        limit: Limit::AtMost(2.5),
        unit: "times the tuned one",
        figure: largest(table.exchanges(), Row::to_tuned),
    };
    [single_call(table, Call::Report), exchange]
}
