//! The layout as a picture: a bar for each table, in the order of their bases, with the ranges that are mapped. Tables are of
//! 4 KiB to some GiB, so a bar's length goes by the logarithm of its table's bytes; within a bar ranges lie at their place.

use std::fmt::Write;

use session::{Books, Setup, Table};
use world::PAGE;

use crate::words;

/// A mapped part of a table: the bytes from its base on, and the pages behind them.
struct Part {
    from: u64,
    to: u64,
    pages: u64,
}

/// The mapped parts of a table.
fn parts(t: &Table, b: &Books) -> Vec<Part> {
    let of = |r: &session::Range| {
        let from = r.virt.checked_sub(t.base).filter(|o| *o < t.bytes)?;
        let to = from.saturating_add(r.buffer.pages.saturating_mul(PAGE)).min(t.bytes);
        Some(Part { from, to, pages: r.buffer.pages })
    };
    b.ranges().iter().filter_map(of).collect()
}

/// How long a table's bar is: as many steps as its bytes are doublings of a page, and one; the largest table's bar is `whole`.
fn length(t: &Table, s: &Setup, whole: u64) -> u64 {
    let steps = |bytes: u64| u64::from(bytes.max(PAGE).ilog2() - PAGE.ilog2() + 1);
    let most = s.tables.iter().map(|t| steps(t.bytes)).max().unwrap_or(1);
    (whole * steps(t.bytes) / most).max(1)
}

/// Where `at` of `whole` lies on a bar of that length.
fn place(at: u64, whole: u64, length: u64) -> u64 {
    (u128::from(at) * u128::from(length) / u128::from(whole.max(1))) as u64
}

fn pages(all: &[Part]) -> u64 {
    all.iter().map(|p| p.pages).sum()
}

fn mapped(all: &[Part]) -> String {
    let ranges = if all.len() == 1 { String::new() } else { format!(" in {} ranges", all.len()) };
    format!("{} mapped{ranges}", words::pages(pages(all)))
}

/// All tables and all mapped ranges in one line.
fn summary(s: &Setup, b: &Books) -> String {
    let all: u64 = b.ranges().iter().map(|r| r.buffer.pages).sum();
    let bytes = words::size(all.saturating_mul(PAGE));
    let (tables, ranges) = (s.tables.len(), b.ranges().len());
    format!(
        "{tables} tables, {} of card addresses; {all} pages ({bytes}) mapped in {ranges} ranges",
        words::size(s.total)
    )
}

const CELLS: u64 = 40;
/// A bar with its ends.
const FRAMED: usize = CELLS as usize + 2;

/// A picture of text.
pub fn text(s: &Setup, b: &Books) -> String {
    let mut all = format!("ICM layout: {}\n", summary(s, b));
    for t in &s.tables {
        let (parts, size) = (parts(t, b), words::size(t.bytes));
        let bar = format!("|{}|", cells(t, &parts, length(t, s, CELLS)));
        let (name, base, mapped) = (words::table(t.index), t.base, mapped(&parts));
        let _ = writeln!(all, "{name:<6} {base:>12x} {bar:<FRAMED$} {size:>9}, {mapped}");
    }
    all + "# is mapped, . is not; a bar grows one step for each doubling of its table's bytes\n"
}

/// The bar of a table.
fn cells(t: &Table, parts: &[Part], length: u64) -> String {
    let mut bar = vec!['.'; length as usize];
    for p in parts {
        let from = place(p.from, t.bytes, length) as usize;
        let to = place(p.to, t.bytes, length) as usize;
        let end = to.max(from + 1).min(bar.len());
        bar[from..end].fill('#');
    }
    bar.into_iter().collect()
}

const WIDTH: u64 = 1000;
const TOP: u64 = 96;
const ROW: u64 = 52;
/// The bars: left edge, the longest one's length, height.
const BAR: (u64, u64, u64) = (200, 480, 24);
/// The text at the right of the bars.
const RIGHT: u64 = 700;
/// A range is drawn at least so wide.
const LEAST: u64 = 4;

const STYLE: &str = "text{font-family:sans-serif;font-size:13px;fill:#222}.h{font-size:18px;font-weight:bold}\
.n{font-size:15px;font-weight:bold}.a{font-family:monospace}.t{fill:#eceff1;stroke:#78909c}.m{fill:#00796b}";

/// A picture in SVG.
pub fn svg(s: &Setup, b: &Books) -> String {
    let height = TOP + ROW * s.tables.len() as u64 + 16;
    let mut all = format!(
        "<svg xmlns=\"http://www.w3.org/2000/svg\" width=\"{WIDTH}\" height=\"{height}\" \
         viewBox=\"0 0 {WIDTH} {height}\" role=\"img\" aria-label=\"ICM layout\">\n<style>{STYLE}</style>\n\
         <rect width=\"{WIDTH}\" height=\"{height}\" fill=\"#fff\"/>\n"
    );
    let _ = writeln!(all, "<text class=\"h\" x=\"24\" y=\"32\">ICM layout</text>");
    let _ = writeln!(all, "<text x=\"24\" y=\"54\">{}</text>", summary(s, b));
    all += &legend();
    for (i, t) in s.tables.iter().enumerate() {
        all += &row(t, &parts(t, b), TOP + ROW * i as u64, length(t, s, BAR.1));
    }
    all + "</svg>\n"
}

fn legend() -> String {
    "<rect class=\"m\" x=\"24\" y=\"65\" width=\"14\" height=\"14\"/><text x=\"44\" y=\"77\">mapped</text>\n\
     <rect class=\"t\" x=\"110\" y=\"65\" width=\"14\" height=\"14\"/>\
     <text x=\"130\" y=\"77\">not mapped; a bar grows one step for each doubling of its table's bytes, and a small range is drawn \
     wider than it is</text>\n"
        .into()
}

fn row(t: &Table, parts: &[Part], y: u64, length: u64) -> String {
    let (x, _, height) = BAR;
    let name = words::table(t.index);
    let mut all = format!(
        "<text class=\"n\" x=\"24\" y=\"{}\">{name}</text><text x=\"24\" y=\"{}\">{} x {} B</text>\n\
         <rect class=\"t\" x=\"{x}\" y=\"{}\" width=\"{length}\" height=\"{height}\"/>\n",
        y + 18,
        y + 36,
        t.count,
        t.entry,
        y + 8
    );
    for p in parts {
        let (from, to) = (place(p.from, t.bytes, length), place(p.to, t.bytes, length));
        let from = from.min(length - LEAST);
        let _ = writeln!(
            all,
            "<rect class=\"m\" x=\"{}\" y=\"{}\" width=\"{}\" height=\"{height}\"><title>{name}: {} from {:#x}</title></rect>",
            x + from,
            y + 8,
            (to.max(from) - from).max(LEAST),
            words::pages(p.pages),
            t.base.saturating_add(p.from)
        );
    }
    let _ = writeln!(
        all,
        "<text class=\"a\" x=\"{RIGHT}\" y=\"{}\">{:#x}</text><text x=\"{RIGHT}\" y=\"{}\">{}, {}</text>",
        y + 18,
        t.base,
        y + 36,
        words::size(t.bytes),
        mapped(parts)
    );
    all
}
