//! Draws the times of calls with the Rust crate and with this port, as pairs of bars in an SVG.
//!
//! Figures are lines of text. A line `# NAME` begins a group. Each line after it has a name, the
//! time with the Rust crate, and the time with this port over `PatternRegexp`, separated by tabs.
//! Times are whole nanoseconds below 2^32. The bars of a group have one scale.

ghost use Rattle.std.specs.Prelude.{◌≡◌, ◌*◌, ◌/◌, ◌<◌, ◌≤◌};

use std::alloc::{AllocError, Global};
use std::io;
use std::io::Write;

/// The length of the longest bar of a group.
const LONGEST_BAR: u64 = 400;

/// The distance between the tops of two rows.
const ROW_HEIGHT: u64 = 28;

/// The distance between the top of a group and its first row.
const HEADING_HEIGHT: u64 = 32;

/// The distance between the top of the picture and the first group.
const TITLE_HEIGHT: u64 = 60;

/// The color of texts.
const TEXT_COLOR: &str = "#1f2933";

/// The color of the bars of the Rust crate.
const ORIGINAL_COLOR: &str = "#9aa5b1";

/// The color of the bars of this port.
const PORT_COLOR: &str = "#2563a8";

/// The times of a call with the Rust crate and with this port, in nanoseconds.
#[derive(Drop)]
struct Row<'a> {
    name: &'a str,
    original: u32,
    port: u32,
}

impl<'a> Row<'a> {
    /// The row of a line. `None`: the line is not a row.
    fn of(line: &'a str) -> Option<Row<'a>> {
        let (name, times) = line.split_once('\t')?;
        let (original, port) = times.split_once('\t')?;
        if !is_drawable(name) {
            return None;
        }
        match (original.parse::<u32>(), port.parse::<u32>()) {
            (Ok(original), Ok(port)) => Some(Row {
                name,
                original,
                port,
            }),
            _ => None,
        }
    }
}

/// Rows whose bars have one scale.
#[derive(Drop)]
struct Group<'a> {
    name: &'a str,
    rows: Vec<Row<'a>>,
}

impl<'a> Group<'a> {
    /// The longest time of the rows.
    fn longest(&self) -> u32 {
        let mut longest = 0;
        for row in &self.rows {
            longest = longest.max(row.original).max(row.port);
        }
        longest
    }

    /// The height of the group in a picture.
    fn height(&self) -> u64 {
        (self.rows.len() as u64)
            .saturating_mul(ROW_HEIGHT)
            .saturating_add(HEADING_HEIGHT)
    }
}

/// The reason why there are no figures.
#[derive(Drop)]
enum Fault {
    /// The line with this number is neither a group nor a row of a group.
    Line(u64),
    /// Memory ran out.
    OutOfMemory,
}

impl From<AllocError> for Fault {
    fn from(_: AllocError) -> Fault {
        Fault::OutOfMemory
    }
}

/// Whether a text may be in an SVG: it is not empty, and XML allows each of its characters.
fn is_drawable(text: &str) -> bool {
    !text.is_empty()
        && text
            .chars()
            .all(|c| c >= ' ' && c != '\u{fffe}' && c != '\u{ffff}')
}

/// Parses groups of figures.
fn read_groups<'a>(alloc: Global, text: &'a str) -> Result<Vec<Group<'a>>, Fault> {
    let mut groups = Vec::<Group<'a>>::new(alloc);
    for (line, number) in text.lines().zip(1u64..) {
        add_line(alloc, &mut groups, line, number)?;
    }
    Ok(groups)
}

/// Parses a line, and appends the group, or the row to the last group.
fn add_line<'a>(
    alloc: Global,
    groups: &mut Vec<Group<'a>>,
    line: &'a str,
    number: u64,
) -> Result<(), Fault> {
    if let Some(name) = line.strip_prefix("# ") {
        if !is_drawable(name) {
            return Err(Fault::Line(number));
        }
        let rows = Vec::new(alloc);
        groups.push(Group { name, rows }).map_err(AllocError::from)?;
        return Ok(());
    }
    match (groups.last_mut(), Row::of(line)) {
        (Some(group), Some(row)) => {
            group.rows.push(row).map_err(AllocError::from)?;
            Ok(())
        }
        _ => Err(Fault::Line(number)),
    }
}

/// The length of the bar of a time in a group with this longest time.
fn bar_length(time: u32, longest: u32) -> u64
    ensures within { result ≤ LONGEST_BAR }
    ensures to_scale { time ≤ longest → 0 < longest → result ≡ time * LONGEST_BAR / longest }
{
    (u64::from(time) * LONGEST_BAR / u64::from(longest.max(1))).min(LONGEST_BAR)
}

/// Writes a text, escaped for SVG.
fn write_text<O: Write>(text: &str, out: &mut O) -> io::Result<()> {
    for c in text.chars() {
        match c {
            '&' => write!(out, "&amp;")?,
            '<' => write!(out, "&lt;")?,
            '>' => write!(out, "&gt;")?,
            _ => write!(out, "{c}")?,
        }
    }
    Ok(())
}

/// Writes nanoseconds as microseconds, to three digits: `0.25`, `27.2`, `126`.
fn write_microseconds<O: Write>(time: u32, out: &mut O) -> io::Result<()> {
    let time = u64::from(time);
    if time < 9_995 {
        let hundredths = (time + 5) / 10;
        write!(out, "{}.{:02}", hundredths / 100, hundredths % 100)
    } else if time < 99_950 {
        let tenths = (time + 50) / 100;
        write!(out, "{}.{}", tenths / 10, tenths % 10)
    } else {
        write!(out, "{}", (time + 500) / 1000)
    }
}

/// Draws the bar of a time, and the time after it in microseconds.
fn draw_bar<O: Write>(
    time: u32,
    longest: u32,
    top: u64,
    color: &str,
    out: &mut O,
) -> io::Result<()> {
    let length = bar_length(time, longest);
    let end = 246 + length;
    let baseline = top.saturating_add(9);
    writeln!(
        out,
        r#"<rect x="240" y="{top}" width="{length}" height="10" fill="{color}"/>"#
    )?;
    write!(out, r#"<text x="{end}" y="{baseline}" font-size="11">"#)?;
    write_microseconds(time, out)?;
    writeln!(out, "</text>")
}

/// Draws a row: its name, and its two bars one below the other.
fn draw_row<O: Write>(row: &Row<'_>, longest: u32, top: u64, out: &mut O) -> io::Result<()> {
    let baseline = top.saturating_add(14);
    write!(out, r#"<text x="232" y="{baseline}" text-anchor="end">"#)?;
    write_text(row.name, out)?;
    writeln!(out, "</text>")?;
    draw_bar(row.original, longest, top, ORIGINAL_COLOR, out)?;
    draw_bar(row.port, longest, top.saturating_add(11), PORT_COLOR, out)
}

/// Draws a group: its name, and its rows one below the other.
fn draw_group<O: Write>(group: &Group<'_>, top: u64, out: &mut O) -> io::Result<()> {
    let baseline = top.saturating_add(22);
    write!(out, r#"<text x="16" y="{baseline}" font-weight="bold">"#)?;
    write_text(group.name, out)?;
    writeln!(out, "</text>")?;
    let longest = group.longest();
    let mut row_top = top.saturating_add(HEADING_HEIGHT);
    for row in &group.rows {
        draw_row(row, longest, row_top, out)?;
        row_top = row_top.saturating_add(ROW_HEIGHT);
    }
    Ok(())
}

/// Draws the head of the picture: a background, a title and a legend.
fn draw_head<O: Write>(height: u64, out: &mut O) -> io::Result<()> {
    writeln!(
        out,
        r#"<svg xmlns="http://www.w3.org/2000/svg" width="720" height="{height}" viewBox="0 0 720 {height}""#
    )?;
    writeln!(
        out,
        r#" font-family="sans-serif" font-size="12" fill="{TEXT_COLOR}">"#
    )?;
    writeln!(out, r#"<rect width="720" height="{height}" fill="white"/>"#)?;
    writeln!(
        out,
        r#"<text x="16" y="28" font-size="16" font-weight="bold">What a call takes, in microseconds (less is better)</text>"#
    )?;
    draw_meaning(16, ORIGINAL_COLOR, "the Rust crate", out)?;
    draw_meaning(140, PORT_COLOR, "this port, over PatternRegexp", out)?;
    writeln!(
        out,
        r#"<text x="704" y="52" text-anchor="end">each group to its own scale</text>"#
    )
}

/// Draws the legend of a color.
fn draw_meaning<O: Write>(left: u64, color: &str, meaning: &str, out: &mut O) -> io::Result<()> {
    let text_left = left.saturating_add(16);
    writeln!(
        out,
        r#"<rect x="{left}" y="42" width="11" height="11" fill="{color}"/>"#
    )?;
    writeln!(out, r#"<text x="{text_left}" y="52">{meaning}</text>"#)
}

/// The height of the picture of the groups.
fn picture_height(groups: &[Group<'_>]) -> u64 {
    let mut height = TITLE_HEIGHT;
    for group in groups {
        height = height.saturating_add(group.height());
    }
    height.saturating_add(16)
}

/// Draws the groups, one below the other.
fn draw<O: Write>(groups: &[Group<'_>], out: &mut O) -> io::Result<()> {
    draw_head(picture_height(groups), out)?;
    let mut top = TITLE_HEIGHT;
    for group in groups {
        draw_group(group, top, out)?;
        top = top.saturating_add(group.height());
    }
    writeln!(out, "</svg>")
}

/// Draws the figures in standard input. If a line is neither a group nor a row of a group, reports
/// the number of the first such line, and draws nothing.
pub fn run<R: Input + AllocGlobal + Eprint, O: Write>(rt: &R, out: &mut O) -> io::Result<()> {
    let text = io::read_to_string(rt.alloc(), rt.reader())?;
    match read_groups(rt.alloc(), &text) {
        Ok(groups) => draw(&groups, out),
        Err(Fault::Line(number)) => {
            eprintln!(rt; "line {number} is neither a group nor a row of a group")?;
            Err(io::Error::from(io::ErrorKind::InvalidData))
        }
        Err(Fault::OutOfMemory) => Err(io::Error::from(io::ErrorKind::OutOfMemory)),
    }
}
