//! Counts of calls as a picture, in SVG.

use crate::summary::{Counts, Part, Summary};
use crate::verdict::Answer;
use crate::Fault;
use plotters::coord::Shift;
use plotters::prelude::*;
use plotters::style::text_anchor::{HPos, Pos, VPos};
use std::fmt::Display;

/// So many rows of a kind the picture has at most.
const MOST_ROWS: usize = 24;

/// Places and sizes, in pixels: the height of a row, where names end and bars begin, the length of
/// the longest bar, and the room for its number.
const ROW: i32 = 20;
const MARGIN: i32 = 16;
const NAMES: i32 = 340;
const BAR: i32 = 440;
const NUMBER: i32 = 90;

/// The longest name.
const LONGEST: usize = 52;

type Area<'a> = DrawingArea<SVGBackend<'a>, Shift>;

/// A row of the picture.
enum Row<'a> {
    Title(String),
    Heading(&'a str),
    Bar { name: &'a str, counts: &'a Counts, most: u64 },
    More(usize),
    Blank,
    Legend,
}

/// The colour of an answer.
fn colour(answer: Answer) -> RGBColor {
    match answer {
        Answer::Valid => RGBColor(76, 154, 91),
        Answer::Refused => RGBColor(192, 57, 43),
        Answer::Replay => RGBColor(224, 142, 43),
        Answer::Unread => RGBColor(138, 138, 138),
    }
}

/// The picture of these counts.
pub(crate) fn of(summary: &Summary, title: &str) -> Result<String, Fault> {
    let parts = summary.parts();
    let rows = rows(summary, title, &parts);
    let size = ((NAMES + BAR + NUMBER) as u32, (2 * MARGIN + ROW * rows.len() as i32) as u32);
    let mut drawn = String::new();
    {
        let area = SVGBackend::with_string(&mut drawn, size).into_drawing_area();
        area.fill(&WHITE).map_err(failed)?;
        for (number, row) in (0..).zip(&rows) {
            draw(&area, MARGIN + ROW * number, row)?;
        }
        area.present().map_err(failed)?;
    }
    Ok(drawn)
}

fn failed(error: impl Display) -> Fault {
    Fault::Write("the picture".into(), error.to_string())
}

/// The rows of the picture, from its top.
fn rows<'a>(summary: &Summary, title: &str, parts: &'a [Part]) -> Vec<Row<'a>> {
    let all = summary.all();
    let each = Answer::ALL.map(|answer| format!("{} {}", all.of(answer), answer.word()));
    let mut rows = vec![
        Row::Title(format!("{title}, {}", summary.days())),
        Row::Title(format!("{} calls: {}", all.all(), each.join(", "))),
        Row::Legend,
    ];
    for Part { title, rows: counted } in parts.iter().filter(|part| !part.rows.is_empty()) {
        let most = counted.iter().map(|(_, counts)| counts.all()).max().unwrap_or(1);
        rows.extend([Row::Blank, Row::Heading(title)]);
        let bars = counted.iter().take(MOST_ROWS);
        rows.extend(bars.map(|(name, counts)| Row::Bar { name, counts, most }));
        if counted.len() > MOST_ROWS {
            rows.push(Row::More(counted.len() - MOST_ROWS));
        }
    }
    rows
}

fn draw(area: &Area<'_>, top: i32, row: &Row<'_>) -> Result<(), Fault> {
    match row {
        Row::Title(text) => write(area, (MARGIN, top), text, HPos::Left, FontStyle::Bold),
        Row::Heading(text) => write(area, (MARGIN, top), text, HPos::Left, FontStyle::Bold),
        Row::Blank => Ok(()),
        Row::More(count) => {
            let text = format!("and {count} more");
            write(area, (NAMES - 8, top), &text, HPos::Right, FontStyle::Normal)
        }
        Row::Bar { name, counts, most } => draw_bar(area, top, name, counts, *most),
        Row::Legend => draw_legend(area, top),
    }
}

/// A name, a piece of the bar for each answer, and the sum.
fn draw_bar(
    area: &Area<'_>,
    top: i32,
    name: &str,
    counts: &Counts,
    most: u64,
) -> Result<(), Fault> {
    write(area, (NAMES - 8, top), &short(name), HPos::Right, FontStyle::Normal)?;
    let place =
        |count: u64| NAMES + (BAR as f64 * count as f64 / most.max(1) as f64).round() as i32;
    let mut sum = 0;
    for answer in Answer::ALL {
        let (from, to) = (place(sum), place(sum + counts.of(answer)));
        sum += counts.of(answer);
        if to > from {
            fill(area, [(from, top + 2), (to, top + ROW - 4)], answer)?;
        }
    }
    write(area, (place(sum) + 6, top), &sum.to_string(), HPos::Left, FontStyle::Normal)
}

fn draw_legend(area: &Area<'_>, top: i32) -> Result<(), Fault> {
    for (number, answer) in (0..).zip(Answer::ALL) {
        let left = MARGIN + 100 * number;
        fill(area, [(left, top + 4), (left + 12, top + 16)], answer)?;
        write(area, (left + 18, top), answer.word(), HPos::Left, FontStyle::Normal)?;
    }
    Ok(())
}

fn fill(area: &Area<'_>, corners: [(i32, i32); 2], answer: Answer) -> Result<(), Fault> {
    area.draw(&Rectangle::new(corners, colour(answer).filled())).map_err(failed)
}

fn write(
    area: &Area<'_>,
    (left, top): (i32, i32),
    text: &str,
    side: HPos,
    weight: FontStyle,
) -> Result<(), Fault> {
    let font = ("sans-serif", 13.0, weight).into_font();
    let style = TextStyle::from(font).pos(Pos::new(side, VPos::Center));
    area.draw(&Text::new(text, (left, top + ROW / 2), style)).map_err(failed)
}

/// A name that has room beside its bar.
fn short(name: &str) -> String {
    if name.chars().count() <= LONGEST {
        return name.into();
    }
    let start: String = name.chars().take(LONGEST - 1).collect();
    format!("{start}\u{2026}")
}
