//! Sheets and lent planes of a given size.

use judge::lent::Lent;
use std::collections::HashMap;

/// Texts of cells: those that fit a column are taken in turn.
const TEXTS: [&str; 12] = [
    "-",
    "12",
    "\"A\"",
    "< 40",
    "170",
    ">= 6",
    "ja",
    "Châtel",
    "\"Kind\"",
    "Forêt-Noire",
    "\"Gärtnerplatz\"",
    "Überlingen, Landungsplatz",
];

/// The columns of a row sheet: the rule numbers first, then inputs, outputs and annotations.
pub struct Columns {
    widths: Vec<usize>,
    outputs_from: usize,
    notes_from: usize,
}

impl Columns {
    /// So many columns behind the rule numbers: a third are outputs, and one of five or more is an annotation.
    fn of(widths: Vec<usize>) -> Self {
        let count = widths.len() - 1;
        let notes = usize::from(count >= 5);
        let outputs = (count / 3).max(1);
        let notes_from = widths.len() - notes;
        Self { widths, outputs_from: notes_from - outputs, notes_from }
    }

    fn is_double_before(&self, column: usize) -> bool {
        column == self.outputs_from || column == self.notes_from
    }

    /// A line: its beginning, what fills it, thin and double junctions, its end. Joined columns are left blank.
    fn line(&self, [begin, fill, thin, double, end]: [char; 5], joined: Option<usize>) -> String {
        let mut line = String::from(begin);
        for (column, width) in self.widths.iter().enumerate() {
            let is_joined = joined == Some(column);
            if column > 0 {
                line.push(match joined {
                    Some(here) if here == column => '┤',
                    Some(here) if here + 1 == column => '├',
                    _ if self.is_double_before(column) => double,
                    _ => thin,
                });
            }
            line.extend(std::iter::repeat_n(if is_joined { ' ' } else { fill }, *width));
        }
        line.push(end);
        line
    }

    /// A row of texts.
    fn row(&self, texts: impl Fn(usize) -> String) -> String {
        let mut line = String::from('│');
        for (column, width) in self.widths.iter().enumerate() {
            if column > 0 {
                line.push(if self.is_double_before(column) { '║' } else { '│' });
            }
            let text: String = texts(column).chars().take(width - 1).collect();
            line.push_str(&format!(" {text:<room$}", room = width - 1));
        }
        line.push('│');
        line
    }
}

/// The text of a cell; rule 0 is the clause row.
fn cell(rule: usize, column: usize, room: usize) -> String {
    match (rule, column) {
        (0, 0) => "U".to_string(),
        (0, _) => format!("c{column}"),
        (_, 0) => rule.to_string(),
        _ => {
            let fits = TEXTS.iter().filter(|text| text.chars().count() <= room).count();
            TEXTS[(5 * rule + 3 * column) % fits].to_string()
        }
    }
}

/// A row sheet. Of the first input's boxes so many pairs are joined; the clause row may have a second line.
pub fn sheet(rules: usize, widths: Vec<usize>, pairs: usize, has_long_head: bool) -> String {
    let columns = Columns::of(widths);
    let text = |rule: usize| columns.row(|column| cell(rule, column, columns.widths[column] - 2));
    let mut lines = vec![columns.line(['┌', '─', '┬', '╥', '┐'], None), text(0)];
    if has_long_head {
        lines.push(columns.row(|_| String::new()));
    }
    lines.push(columns.line(['╞', '═', '╪', '╬', '╡'], None));
    for rule in 1..=rules {
        if rule > 1 {
            let is_joined = rule % 2 == 0 && rule <= 2 * pairs;
            lines.push(columns.line(['├', '─', '┼', '╫', '┤'], is_joined.then_some(1)));
        }
        lines.push(text(rule));
    }
    lines.push(columns.line(['└', '─', '┴', '╨', '┘'], None));
    lines.join("\n") + "\n"
}

/// The widths of so many columns and the rule numbers, all alike.
pub fn alike(columns: usize, width: usize) -> Vec<usize> {
    vec![width; columns + 1]
}

/// The widths of so many columns and the rule numbers that fill a canvas of 160 characters.
pub fn filling(columns: usize) -> Vec<usize> {
    let count = columns + 1;
    let all = 159 - count;
    (0..count).map(|column| all / count + usize::from(column < all % count)).collect()
}

/// A lent plane of so many rules and columns, with the texts of a sheet.
pub fn plane(rules: usize, columns: usize) -> Lent {
    let sizes = Columns::of(alike(columns, 8));
    let mut lent = Lent::default();
    let mut known = HashMap::new();
    for rule in 0..=rules {
        add_row(&mut lent, &sizes, |lent, column| {
            (0, region(lent, &mut known, cell(rule, column, 6)))
        });
        if rule == 0 {
            add_row(&mut lent, &sizes, |_, _| (3, 0));
        }
    }
    lent
}

/// Adds a row: the cells of the columns, and those of the double lines, which are crossings in the row of the double line.
fn add_row(
    lent: &mut Lent,
    columns: &Columns,
    mut cell: impl FnMut(&mut Lent, usize) -> (u64, u64),
) {
    let before = lent.kinds.len();
    for column in 0..columns.widths.len() {
        let (kind, region) = cell(lent, column);
        if columns.is_double_before(column) {
            let is_first = column == columns.outputs_from;
            let line = if is_first { 1 } else { 2 };
            let crossing = if is_first { 5 } else { 6 };
            lent.kinds.push(if kind == 3 { crossing } else { line });
            lent.regions.push(0);
        }
        lent.kinds.push(kind);
        lent.regions.push(region);
    }
    lent.row_lengths.push((lent.kinds.len() - before) as u64);
}

/// The region of a text: one for each text.
fn region(lent: &mut Lent, known: &mut HashMap<String, u64>, text: String) -> u64 {
    let next = known.len() as u64;
    *known.entry(text).or_insert_with_key(|text| {
        lent.offsets.push(lent.bytes.len() as u64);
        lent.lengths.push(text.len() as u64);
        lent.bytes.extend(text.as_bytes());
        next
    })
}

/// A sentence of prose and what is around a sheet: so many lines of it.
fn prose(lines: usize) -> String {
    const SENTENCES: [&str; 4] = [
        "Die Tarife gelten ab dem Fahrplanwechsel auf allen Linien des Landkreises, auch",
        "für Fahrten über Überlingen und den Gärtnerplatz hinaus. Les voyageurs venant de",
        "la Forêt-Noire paient le tarif de la zone dans laquelle ils montent, sauf avis",
        "contraire affiché à l'arrêt. Drivers keep one copy of this page in the cash box.",
    ];
    (0..lines).map(|line| format!("  {}\n", SENTENCES[line % SENTENCES.len()])).collect()
}

/// A sheet in a page of prose.
pub fn in_prose(sheet: &str) -> String {
    format!("{}\n{sheet}\n{}", prose(40), prose(20))
}
