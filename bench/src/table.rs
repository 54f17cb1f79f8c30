//! The tables, as markdown that reads as plain text too.
#[cfg(before)]
use crate::before::Moved;
use crate::clock::Times;
use crate::growth::{Curve, Hostile};
use crate::groups::{median, Row};
use crate::models::{InBoth, Pace, Widened};
use crate::parts::Parts;
use crate::wordings::InWordings;

/// Nanoseconds with their unit, three digits or so.
pub fn duration(ns: f64) -> String {
    let (figure, unit) = match ns {
        ns if ns < 1e3 => (ns, "ns"),
        ns if ns < 1e6 => (ns / 1e3, "us"),
        ns if ns < 1e9 => (ns / 1e6, "ms"),
        ns => (ns / 1e9, "s"),
    };
    if figure < 10.0 {
        format!("{figure:.2} {unit}")
    } else if figure < 100.0 {
        format!("{figure:.1} {unit}")
    } else {
        format!("{figure:.0} {unit}")
    }
}

/// A ratio, two digits behind the point unless it is large or small.
fn ratio(figure: f64) -> String {
    match figure {
        figure if figure >= 100.0 => format!("{figure:.0}"),
        figure if figure >= 0.1 => format!("{figure:.2}"),
        figure => format!("{figure:.5}"),
    }
}

/// A whole number with commas.
fn grouped(number: usize) -> String {
    let digits = number.to_string();
    let mut text = String::new();
    for (place, digit) in digits.chars().enumerate() {
        if place > 0 && (digits.len() - place) % 3 == 0 {
            text.push(',');
        }
        text.push(digit);
    }
    text
}

/// A markdown table whose columns are padded to one width.
fn laid_out(head: &[&str], rows: &[Vec<String>]) -> String {
    let width = |column: usize| rows.iter().map(|row| row[column].len()).chain([head[column].len()]).max().unwrap_or(0);
    let widths: Vec<usize> = (0..head.len()).map(width).collect();
    let line = |cells: Vec<&str>| {
        let padded = cells.iter().zip(&widths).enumerate().map(|(column, (cell, width))| match column {
            0 => format!("{cell:<width$}"),
            _ => format!("{cell:>width$}"),
        });
        format!("| {} |\n", padded.collect::<Vec<_>>().join(" | "))
    };
    let rule = |column: usize| "-".repeat(widths[column] + 1) + if column == 0 { "-" } else { ":" };
    let mut text = line(head.to_vec());
    text += &format!("|{}|\n", (0..head.len()).map(rule).collect::<Vec<_>>().join("|"));
    for row in rows {
        text += &line(row.iter().map(String::as_str).collect());
    }
    text
}

/// One line a group.
pub fn groups(rows: &[Row]) -> String {
    let head = ["group", "cases", "cells lent", "case bytes", "library", "Rust", "ratio", "worst ratio"];
    let cells = |row: &Row| {
        vec![
            row.name.clone(),
            grouped(row.times.len()),
            grouped(row.cells),
            grouped(row.case_bytes as usize),
            duration(median(row.times.iter().map(|times| times.library))),
            duration(median(row.times.iter().map(|times| times.other))),
            ratio(median(row.times.iter().map(|times| times.ratio()))),
            ratio(row.times.iter().map(|times| times.ratio()).fold(f64::INFINITY, f64::min)),
        ]
    };
    laid_out(&head, &rows.iter().map(cells).collect::<Vec<_>>())
}

/// One line a name.
pub fn names(rows: &[(String, Option<Times>)]) -> String {
    let head = ["name", "library", "Rust", "ratio"];
    let cells = |(name, times): &(String, Option<Times>)| {
        let figures = match times {
            Some(times) => [duration(times.library), duration(times.other), ratio(times.ratio())],
            None => ["another name", "another name", "-"].map(str::to_string),
        };
        [format!("`{name}`")].into_iter().chain(figures).collect()
    };
    laid_out(&head, &rows.iter().map(cells).collect::<Vec<_>>())
}

/// One line a group: document 01's model and the full one on the cases that both walk alike.
pub fn in_both(groups: &[InBoth]) -> String {
    let head = ["group", "cases", "walked further", "document 01's", "full", "full / document 01's", "greatest"];
    let cells = |group: &InBoth| {
        let slower = || group.times.iter().map(|times| times.library / times.other);
        vec![
            group.name.clone(),
            grouped(group.times.len()),
            grouped(group.further),
            duration(median(group.times.iter().map(|times| times.other))),
            duration(median(group.times.iter().map(|times| times.library))),
            ratio(median(slower())),
            ratio(slower().fold(0.0, f64::max)),
        ]
    };
    laid_out(&head, &groups.iter().map(cells).collect::<Vec<_>>())
}

/// One line a group: wording 1 and wording 2.
pub fn in_wordings(groups: &[InWordings]) -> String {
    let head = ["group", "cases", "wording 1", "wording 2", "2 / 1", "reworded", "wording 1", "wording 2", "2 / 1"];
    let figures = |times: &[Times]| {
        if times.is_empty() {
            return ["-"; 3].map(str::to_string);
        }
        [
            duration(median(times.iter().map(|times| times.other))),
            duration(median(times.iter().map(|times| times.library))),
            ratio(median(times.iter().map(|times| times.library / times.other))),
        ]
    };
    let cells = |group: &InWordings| {
        let all = [group.name.clone(), grouped(group.times.len())].into_iter().chain(figures(&group.times));
        all.chain([grouped(group.reworded.len())]).chain(figures(&group.reworded)).collect()
    };
    laid_out(&head, &groups.iter().map(cells).collect::<Vec<_>>())
}

/// The median pace of document 01's model through code that cites members, or through code that cites none.
fn usual_pace(paces: &[Pace], cites: bool) -> f64 {
    median(paces.iter().filter(|pace| pace.cites == cites).filter_map(|pace| pace.document))
}

/// One line a long method. Solver code is set against the median of document 01's model through code of its sort.
pub fn paces(paces: &[Pace]) -> String {
    let head = ["straight-line code", "cites members", "instructions", "document 01's", "full", "full / document 01's"];
    let cells = |pace: &Pace| {
        vec![
            pace.name.to_string(),
            if pace.cites { "yes" } else { "no" }.to_string(),
            grouped(pace.instructions as usize),
            pace.document.map_or("-".to_string(), duration),
            duration(pace.full),
            ratio(pace.full / pace.document.unwrap_or_else(|| usual_pace(paces, pace.cites))),
        ]
    };
    laid_out(&head, &paces.iter().map(cells).collect::<Vec<_>>())
}

/// One line a pair of opcodes.
pub fn alike(pairs: &[[Pace; 2]]) -> String {
    let head = ["document 01's opcode", "added opcode", "in document 01's model", "in the full model", "full / document 01's"];
    let cells = |[one, other]: &[Pace; 2]| {
        let document = one.document.unwrap_or(f64::NAN);
        vec![
            one.name.to_string(),
            other.name.to_string(),
            duration(document),
            duration(other.full),
            ratio(other.full / document),
        ]
    };
    laid_out(&head, &pairs.iter().map(cells).collect::<Vec<_>>())
}

/// One line a unit: with locals of one byte, and behind `wide`, in the full model.
pub fn widened(methods: &[Widened]) -> String {
    let head = ["unit", "instructions", "behind wide", "each", "behind wide", "ratio", "report", "behind wide"];
    let cells = |Widened { narrow, wide, reports }: &Widened| {
        vec![
            narrow.name.to_string(),
            grouped(narrow.instructions as usize),
            grouped(wide.instructions as usize),
            duration(narrow.full),
            duration(wide.full),
            ratio(wide.full / narrow.full),
            duration(reports.other),
            duration(reports.library),
        ]
    };
    laid_out(&head, &methods.iter().map(cells).collect::<Vec<_>>())
}

/// An earlier build of the library, and this one.
#[cfg(before)]
pub fn moved(lines: &[Moved]) -> String {
    let head = ["what", "cases", "differing", "before", "now", "before / now"];
    let cells = |line: &Moved| {
        vec![
            line.name.clone(),
            grouped(line.times.len()),
            grouped(line.differing),
            duration(median(line.times.iter().map(|times| times.other))),
            duration(median(line.times.iter().map(|times| times.library))),
            ratio(median(line.times.iter().map(|times| times.ratio()))),
        ]
    };
    laid_out(&head, &lines.iter().map(cells).collect::<Vec<_>>())
}

/// One line a curve, first point to last.
pub fn growth(curves: &[Curve]) -> String {
    let head = ["what", "from", "to", "code grows by", "library's time by", "Rust's time by"];
    let cells = |curve: &Curve| {
        let (code, library, rust) = curve.growth()?;
        Some(vec![
            curve.name.to_string(),
            grouped(curve.points.first()?.bytes),
            grouped(curve.points.last()?.bytes),
            ratio(code),
            ratio(library),
            ratio(rust),
        ])
    };
    laid_out(&head, &curves.iter().filter_map(cells).collect::<Vec<_>>())
}

/// One line a point of every curve.
pub fn points(curves: &[Curve]) -> String {
    let head = ["what", "bytes of code", "library", "Rust", "ratio"];
    let cells = |curve: &Curve| {
        let line = |point: &crate::growth::Point| {
            vec![
                curve.name.to_string(),
                grouped(point.bytes),
                duration(point.times.library),
                duration(point.times.other),
                ratio(point.times.ratio()),
            ]
        };
        curve.points.iter().map(line).collect::<Vec<_>>()
    };
    laid_out(&head, &curves.iter().flat_map(cells).collect::<Vec<_>>())
}

/// One line a hostile table.
pub fn hostile(tables: &[Hostile]) -> String {
    let head = ["what", "members", "library", "with one", "library's factor", "Rust", "with one", "Rust's factor", "ratio"];
    let cells = |table: &Hostile| {
        vec![
            table.name.to_string(),
            grouped(usize::from(table.members)),
            duration(table.many.library),
            duration(table.one.library),
            ratio(table.many.library / table.one.library),
            duration(table.many.other),
            duration(table.one.other),
            ratio(table.many.other / table.one.other),
            ratio(table.many.ratio()),
        ]
    };
    laid_out(&head, &tables.iter().map(cells).collect::<Vec<_>>())
}

/// One line a group: its medians, so the parts add up to the whole only roughly.
pub fn parts(groups: &[(String, Parts)]) -> String {
    let head = ["group", "report", "reading the case", "leader scan", "walk", "rest"];
    let cells = |(name, parts): &(String, Parts)| {
        let figures = [parts.report, parts.reading, parts.scan, parts.walk, parts.rest];
        [name.clone()].into_iter().chain(figures.map(|ns| duration(ns.max(0.0)))).collect()
    };
    laid_out(&head, &groups.iter().map(cells).collect::<Vec<_>>())
}
