//! The figures, as they are printed.

use crate::calls::{Line, GATEWAYS};
use crate::lookups::KINDS;
use crate::timing::{BATCHES, HOMES, ROUNDS};
use crate::{messages, places, PASSES};
use std::fmt;

/// A call at a depth.
pub struct Row {
    pub line: Line,
    pub library: f64,
    pub reference: f64,
    pub tuned: f64,
}

/// Lookups alone.
pub struct Lookups {
    name: &'static str,
    pub walk: f64,
    pub home: f64,
    reference: f64,
    tuned: f64,
}

/// The request inside.
pub struct Reading {
    name: &'static str,
    pub library: f64,
    pub reference: f64,
}

pub struct Table {
    pub rows: Vec<Row>,
    /// By [`KINDS`].
    pub lookups: [Lookups; KINDS.len()],
    /// By [`messages::KINDS`].
    pub readings: [Reading; messages::KINDS.len()],
    pub median_place: f64,
    pub worst_place: f64,
    /// One opening, in nanoseconds.
    opening: f64,
}

impl Row {
    pub fn to_reference(&self) -> f64 {
        self.library / self.reference
    }

    pub fn to_tuned(&self) -> f64 {
        self.library / self.tuned
    }
}

impl Table {
    /// The figures of a pass: three for each line, four for each kind of lookup, two of places, two
    /// for each kind of reading.
    pub fn new(figures: &[f64], opening: f64) -> Table {
        let mut figures = figures.iter().copied();
        let mut next = || figures.next().expect("a pass prints as many figures");
        let mut row = |line: Line| Row {
            line,
            library: next(),
            reference: next(),
            tuned: next(),
        };
        Table {
            rows: Line::all().into_iter().map(&mut row).collect(),
            lookups: KINDS.map(|kind| Lookups {
                name: kind.name,
                walk: next(),
                home: next(),
                reference: next(),
                tuned: next(),
            }),
            median_place: next(),
            worst_place: next(),
            readings: messages::KINDS.map(|name| Reading {
                name,
                library: next(),
                reference: next(),
            }),
            opening,
        }
    }

    /// The whole exchanges.
    pub fn exchanges(&self) -> impl Iterator<Item = &Row> {
        self.rows.iter().filter(|row| row.line.is_exchange())
    }

    /// What a row's call takes of one opening.
    pub fn share(&self, row: &Row) -> f64 {
        row.library / self.opening
    }

    fn write_row(&self, f: &mut fmt::Formatter<'_>, row: &Row) -> fmt::Result {
        write!(
            f,
            "{:<17} {:>7} {:>10.1} {:>10.1} {:>10.1} {:>10.2} {:>10.2}",
            row.line.call.name(),
            row.line.depth,
            row.library,
            row.reference,
            row.tuned,
            row.to_reference(),
            row.to_tuned()
        )?;
        if row.line.is_exchange() {
            write!(f, " {:>11.2} %", 100.0 * self.share(row))?;
        }
        writeln!(f)
    }

    fn write_places(&self, f: &mut fmt::Formatter<'_>) -> fmt::Result {
        writeln!(
            f,
            "where in memory the gateway lies: an exchange, {} pending and moving, takes {:.1} at the \
             median of {} places, {:.1} at the worst",
            places::DEPTH,
            self.median_place,
            places::COUNT,
            self.worst_place
        )
    }
}

impl fmt::Display for Lookups {
    fn fmt(&self, f: &mut fmt::Formatter<'_>) -> fmt::Result {
        let ratio = self.walk / self.home;
        write!(
            f,
            "{:<17} {:>7} {:>10.1} {:>10.1} {:>10.1} {:>10.1} {ratio:>10.2}",
            self.name, HOMES, self.walk, self.home, self.reference, self.tuned
        )
    }
}

impl fmt::Display for Reading {
    fn fmt(&self, f: &mut fmt::Formatter<'_>) -> fmt::Result {
        // Bytes in a nanosecond are thousands of MB in a second.
        let rate = |time| 1_000.0 * messages::LENGTH as f64 / time;
        write!(
            f,
            "{:<17} {:>7} {:>10.1} {:>10.1} {:>10.2} {:>10.0} {:>10.0}",
            self.name,
            messages::LENGTH,
            self.library,
            self.reference,
            self.library / self.reference,
            rate(self.library),
            rate(self.reference)
        )
    }
}

/// What the columns mean, and how they are measured.
fn write_method(f: &mut fmt::Formatter<'_>) -> fmt::Result {
    writeln!(
        f,
        "\
What a call costs, in nanoseconds.

  library      the C functions of libsealwax.a, called by their declarations and not by the crate
  reference    the same calls by `&mut` to the gateway of reference/: plain Rust, with a map
  tuned        the same in plain Rust written for speed, with the library's table and homes:
               hosts/rust/examples/bench/tuned.rs, tested against the reference
  pending      other exchanges that are pending at the call; a single call's are staying ones
  moving       steady traffic: a new exchange is admitted and opened, and the oldest gets its
               response, so that tickets in a row are pending and each new one finds its home free
  staying      they stay all the while and are drawn from a full table, for each gateway anew; new
               tickets run round all homes, and a taken one sends them to the first free place
  opening      CIRCL's HPKE in Go, Receiver.Setup and Open of a request of 200 bytes: X25519,
               HKDF-SHA256, AES-128-GCM

A batch makes the call once on each of {GATEWAYS} gateways and is timed as a whole, less the reading of the
clock. What brings the gateways to the call and back is not timed, so that the number pending is
the same for every call. All sides get the same bytes: that request, and a list of three keys of
which it names the last. Buffers are not cleared before a call. The sides take turns batch by
batch. A figure is the mean over {HOMES} tickets in a row, which have all the homes, each at its best of
{ROUNDS} batches. A batch of lookups asks one full gateway for each of its tickets once, and the best
of {BATCHES} counts. An opening is timed before each of the {PASSES} passes; each figure is its best of them.

The message inside is a POST with {} header fields, the rest of it content. The library's is read by
the crate, `Request::read`, and each field taken once from `headers`; the reference's by
`read_message` and `fields`.
",
        messages::FIELDS.len()
    )
}

impl fmt::Display for Table {
    fn fmt(&self, f: &mut fmt::Formatter<'_>) -> fmt::Result {
        write_method(f)?;
        writeln!(
            f,
            "{:<17} {:>7} {:>10} {:>10} {:>10} {:>10} {:>10} {:>13}",
            "call",
            "pending",
            "library",
            "reference",
            "tuned",
            "/reference",
            "/tuned",
            "of an opening"
        )?;
        for row in &self.rows {
            self.write_row(f, row)?;
        }
        writeln!(
            f,
            "\n{:<17} {:>7} {:>10} {:>10} {:>10} {:>10} {:>10}",
            "lookups alone", "pending", "walk", "by home", "reference", "tuned", "walk/home"
        )?;
        for lookups in &self.lookups {
            writeln!(f, "{lookups}")?;
        }
        writeln!(
            f,
            "\n{:<17} {:>7} {:>10} {:>10} {:>10} {:>10} {:>10}",
            "message inside", "bytes", "library", "reference", "/reference", "MB/s", "ref. MB/s"
        )?;
        for reading in &self.readings {
            writeln!(f, "{reading}")?;
        }
        writeln!(f, "\none opening: {:.0}", self.opening)?;
        self.write_places(f)
    }
}
