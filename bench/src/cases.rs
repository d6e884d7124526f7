//! What both are asked, by name.

use crate::draw::{alike, filling, in_prose, plane, sheet};
use judge::lent::Lent;

/// An input of one of the three entries.
pub enum Input {
    Sheet(String),
    Plane(Lent),
    Text(String),
}

/// An input with its name, and how many times as fast as the Rust the port must be with it.
pub struct Case {
    pub name: &'static str,
    pub input: Input,
    pub goal: Option<f64>,
}

/// The bytes of the long texts for the value split.
const LONG: usize = 61_440;

/// The sheet of document 01.
const SAMPLE: &str = include_str!("../../examples/sample.txt");

/// All cases. 96 rows take 46 rules, so that 60 rules stand in a lent plane alone.
pub const NAMES: [&str; 14] = [
    "sample",
    "10x5",
    "46x12",
    "largest",
    "prose",
    "plane-10x5",
    "plane-60x12",
    "plane-62x61",
    "split-yes-no",
    "split-stops",
    "split-commas",
    "split-stars",
    "split-parts",
    "split-replacing",
];

/// The case of a name.
pub fn named(name: &str) -> Option<Case> {
    let name = NAMES.into_iter().find(|known| *known == name)?;
    let input = match name {
        "sample" => Input::Sheet(SAMPLE.to_string()),
        "10x5" => Input::Sheet(sheet(10, alike(5, 10), 0, false)),
        "46x12" => Input::Sheet(sheet(46, alike(12, 10), 0, false)),
        "largest" => Input::Sheet(sheet(46, filling(21), 10, true)),
        "prose" => Input::Sheet(in_prose(&sheet(10, alike(5, 10), 0, false))),
        "plane-10x5" => Input::Plane(plane(10, 5)),
        "plane-60x12" => Input::Plane(plane(60, 12)),
        "plane-62x61" => Input::Plane(plane(62, 61)),
        _ => Input::Text(text(name)),
    };
    let goal = match &input {
        Input::Sheet(_) if name == "sample" => Some(1.5),
        Input::Sheet(_) => Some(5.0),
        _ => None,
    };
    Some(Case { name, input, goal })
}

/// The text of a case for the value split.
fn text(name: &str) -> String {
    match name {
        "split-yes-no" => "`Yes`, No".to_string(),
        "split-stops" => {
            "\"Überlingen\", \"Châtel\", *\"Forêt-Noire\"*, \"Gärtnerplatz\"".to_string()
        }
        "split-commas" => ",".repeat(LONG),
        "split-stars" => "*".repeat(LONG),
        "split-parts" => "*a*,".repeat(LONG / 4),
        _ => "*".repeat(LONG / 4) + "b**," + &"*".repeat(LONG / 4 * 3 - 4),
    }
}

/// How a sheet grows, with the sizes that are measured.
#[derive(Clone, Copy)]
pub struct Growth {
    pub name: &'static str,
    pub what: &'static str,
    pub sizes: &'static [usize],
}

/// The last grows in boxes on a canvas of one size, 96 by 160.
pub const GROWTHS: [Growth; 3] = [
    Growth { name: "rows", what: "rules, of 5 columns", sizes: &[1, 2, 4, 8, 16, 32, 46] },
    Growth { name: "columns", what: "columns, of 10 rules", sizes: &[2, 4, 8, 16, 21] },
    Growth { name: "regions", what: "columns, 96 by 160 characters", sizes: &[2, 3, 5, 10, 20] },
];

impl Growth {
    /// The sheet of a size.
    pub fn sheet(&self, size: usize) -> String {
        match self.name {
            "rows" => sheet(size, alike(5, 8), 0, false),
            "columns" => sheet(10, alike(size, 6), 0, false),
            _ => sheet(46, filling(size), 0, true),
        }
    }

    /// What grows: rules, columns, or the boxes of 47 rows.
    pub fn count(&self, size: usize) -> usize {
        if self.name == "regions" { 47 * (size + 1) } else { size }
    }
}

/// The input of a name: of a case, or of a growth and a size, as in `rows-8`.
pub fn input(name: &str) -> Option<Input> {
    let grown = || {
        let (growth, size) = name.split_once('-')?;
        let growth = GROWTHS.into_iter().find(|known| known.name == growth)?;
        Some(Input::Sheet(growth.sheet(size.parse().ok()?)))
    };
    named(name).map(|case| case.input).or_else(grown)
}

#[cfg(test)]
mod tests {
    use super::{GROWTHS, Input, NAMES, input, named};
    use judge::canvas::{collected, regions_of, width};
    use judge::limits::RECORD_BYTES;
    use judge::outcome::Outcome;
    use judge::sheet::judge_sheet;

    fn sheet(name: &str) -> String {
        match input(name) {
            Some(Input::Sheet(text)) => text,
            _ => panic!("{name} is no sheet"),
        }
    }

    #[test]
    fn every_name_is_known() {
        assert!(NAMES.into_iter().all(|name| named(name).is_some()));
        assert!(named("rows-8").is_none());
    }

    #[test]
    fn the_largest_sheet_is_at_every_limit() {
        let rows = collected(&sheet("largest"));
        let regions = regions_of(&rows).expect("regions").0.len();
        assert_eq!((rows.len(), width(&rows), regions), (96, 160, 1_024));
    }

    #[test]
    fn every_sheet_that_grows_is_taken() {
        for growth in GROWTHS {
            for size in growth.sizes {
                let text = sheet(&format!("{}-{size}", growth.name));
                let outcome = judge_sheet(text.as_bytes(), RECORD_BYTES).expect("no fault");
                assert!(matches!(outcome, Outcome::Record(_)), "{text}");
                let regions = regions_of(&collected(&text)).expect("regions").0.len();
                assert!(growth.name != "regions" || regions == growth.count(*size));
            }
        }
    }
}
