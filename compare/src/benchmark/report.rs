//! What the benchmark prints: a line for each row, and the worst ratios. Also what the document and the picture ask of the rows.

use crate::clock::Row;
use crate::others::OTHERS;
use crate::texts::{Case, Kind};
use compare::{call, Operation};

/// The head of the table that is printed. `unit` is what is measured.
pub fn head(unit: &str) -> String {
    let over = format!("{:56}{:35}ours over", "", format!("{} per byte", unit));
    over + "\noperation and context                   class           ours   crate  +utf8  memcpy    crate  +utf8  memcpy"
}

/// One line of the table.
pub fn line(row: &Row) -> String {
    let case = &row.case;
    let place = format!("{} {}", case.family(), case.place());
    let mark = match row.limit {
        Some(limit) if row.above() => format!("  above {:.2}", limit),
        _ => String::new(),
    };
    let medians = format!("{:6.3}  {:6.3} {:6.3}  {:6.3}", row.ours, row.alone, row.checked, row.copied);
    let ratios = format!("{:6.2} {:6.2}  {:6.1}", row.ours / row.alone, row.ratio(), row.ours / row.copied);
    let others = OTHERS.iter().zip(row.others).filter_map(|(name, other)| other.map(|other| format!("  {} {:.3}, over it {:.2}", name, other, row.ours / other)));
    format!("{:39} {:14} {}   {}{}{}", place, case.class, medians, ratios, others.collect::<String>(), mark)
}

/// The worst ratio of each family in each class, as lines of text; where there are limits, how many rows are above theirs.
pub fn summary(rows: &[Row]) -> String {
    let mut text = String::from("worst ratio, ours over the crate after from_utf8 (* above the limit):\n");
    for family in families(rows) {
        let worst = classes(rows).into_iter().filter_map(|class| worst(rows, family, class));
        let cell = |row: &Row| format!("{} {:.2}{}", row.case.class, row.ratio(), if row.above() { "*" } else { "" });
        text += &format!("{:24} {}\n", family, worst.map(cell).collect::<Vec<_>>().join(", "));
    }
    let beside = beside(rows, |case| case.kind == Kind::Check, "check over take, worst (* above 1.00 in plain, 0.65 in 10 %, 50 % and all)")
        + &beside(rows, |case| case.kind == Kind::Page, "fill_page over single calls (* above 1.05)")
        + &beside(rows, |case| case.kind == Kind::Parts, "script_raw in parts of 4 KiB over one encode (* above 1.25; short names are one part each)")
        + &beside(rows, Case::writes_json, "encode of json over that of script_double (* above 1.10, in all 1.30)")
        + &beside(rows, Case::writes_ascii, "encode of ascii_quoted over that of quoted (* above 1.05)");
    match rows.iter().any(|row| row.limit.is_some()) {
        true => text + &beside + &above(rows),
        false => text.replace(" (* above the limit)", "") + &beside,
    }
}

/// A row beside that of the copying call on the same texts: of check beside `take`, of fill_page beside its single calls, of a script by parts beside its
/// encode, of json beside script_double, of ascii_quoted beside quoted.
pub struct Beside<'a> {
    pub row: &'a Row,
    pub copying: &'a Row,
}

impl Beside<'_> {
    /// Ours over ours, to the two digits that are printed.
    pub fn ratio(&self) -> f64 {
        (100.0 * self.row.ours / self.copying.ours).round() / 100.0
    }

    pub fn above(&self) -> bool {
        self.row.case.beside_limit().map_or(false, |limit| self.ratio() > limit)
    }
}

/// Every row of a kind with that of its copying call.
pub fn besides(rows: &[Row], of_kind: impl Fn(&Case) -> bool) -> Vec<Beside<'_>> {
    let copying = |row: &Row| rows.iter().find(|other| other.case.is_copying_of(&row.case));
    rows.iter().filter(|row| of_kind(&row.case)).filter_map(|row| copying(row).map(|copying| Beside { row, copying })).collect()
}

/// The highest ratio of a class among them.
pub fn worst_beside<'a, 'b>(besides: &'b [Beside<'a>], class: &str) -> Option<&'b Beside<'a>> {
    besides.iter().filter(|beside| beside.row.case.class == class).max_by(|one, other| one.ratio().total_cmp(&other.ratio()))
}

/// The worst of a kind in each class, as a line of text after `title`.
fn beside(rows: &[Row], of_kind: impl Fn(&Case) -> bool, title: &str) -> String {
    let besides = besides(rows, of_kind);
    let cell = |beside: &Beside| format!("{} {:.2}{}", beside.row.case.class, beside.ratio(), if beside.above() { "*" } else { "" });
    let cells: Vec<String> = classes(rows).into_iter().filter_map(|class| worst_beside(&besides, class)).map(cell).collect();
    if cells.is_empty() {
        return String::new();
    }
    format!("{}: {}\n", title, cells.join(", "))
}

/// How many rows are above their limit.
pub fn above(rows: &[Row]) -> String {
    let above = rows.iter().filter(|row| row.above()).count();
    format!("{} of {} lines are above their limit.", above, rows.len())
}

/// The families of the rows, each once.
pub fn families(rows: &[Row]) -> Vec<&'static str> {
    each_once(rows.iter().map(|row| row.case.family()))
}

/// The classes of the rows, each once.
pub fn classes(rows: &[Row]) -> Vec<&'static str> {
    each_once(rows.iter().map(|row| row.case.class))
}

/// Values, each once, in their order.
pub fn each_once<T: PartialEq>(values: impl Iterator<Item = T>) -> Vec<T> {
    let mut all = Vec::new();
    for value in values {
        if !all.contains(&value) {
            all.push(value);
        }
    }
    all
}

/// The row with the highest ratio among the contexts of a family, for one class.
pub fn worst<'a>(rows: &'a [Row], family: &str, class: &str) -> Option<&'a Row> {
    highest(rows.iter().filter(|row| row.case.family() == family && row.case.class == class))
}

/// The row with the highest ratio.
pub fn highest<'a>(rows: impl Iterator<Item = &'a Row>) -> Option<&'a Row> {
    rows.max_by(|one, other| one.ratio().total_cmp(&other.ratio()))
}

/// A label as text in a document, escaped by the library itself.
pub fn escaped(label: &str) -> String {
    let mut output = vec![0; 6 * label.len()];
    let answer = call(Operation::Encode, false, 1, label.as_bytes(), &mut output);
    output.truncate(answer.length as usize);
    String::from_utf8(output).expect("the library writes UTF-8")
}
