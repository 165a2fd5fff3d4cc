//! Draws what a picture shows.

use super::{lanes::Lane, trace, Neighbour, Shown};
use cancel::Hypothesis;
use plotters::coord::Shift;
use plotters::prelude::*;
use plotters::style::text_anchor::{HPos, Pos, VPos};

/// Left of the panels stand the names and numbers, right of them little.
const LEFT: u32 = 150;
const RIGHT: u32 = 30;

/// Heights of the panels from the top down; the last has the rest.
const TITLE: u32 = 60;
/// What each line of a title below its first adds.
const REASON: u32 = 26;
const ROW: u32 = 360;
const LANES: u32 = 330;
/// What of a panel its caption takes.
const CAPTION: u32 = 34;

/// Dark on light, so that they can be told apart in grey too.
const INK: RGBColor = RGBColor(20, 30, 50);
const LINE: RGBColor = RGBColor(31, 78, 121);
const LIMIT: RGBColor = RGBColor(192, 57, 43);
const FAINT: RGBColor = RGBColor(230, 159, 80);
const SHADE: RGBColor = RGBColor(222, 232, 242);
const STRIPE: RGBColor = RGBColor(244, 245, 247);

const FONT: &str = "sans-serif";
const SMALL: i32 = 19;
const LARGE: i32 = 25;

type Drawn = Result<(), String>;

/// Draws it all onto an area of a picture.
pub(super) fn drawn<B: DrawingBackend>(area: &DrawingArea<B, Shift>, shown: &Shown<'_>) -> Drawn {
    area.fill(&WHITE).map_err(said)?;
    let (title, rest) = area.split_vertically(TITLE + added(shown.reasons.len()));
    let (row, rest) = rest.split_vertically(ROW);
    let (lanes, neighbour) = rest.split_vertically(LANES);
    draw_title(&title, shown)?;
    draw_row(&row, shown)?;
    draw_lanes(&lanes, shown)?;
    draw_neighbour(&neighbour, shown)?;
    area.present().map_err(said)
}

/// How much higher a picture is with so many lines of reasons in its title.
pub(super) fn added(lines: usize) -> u32 {
    REASON * lines as u32
}

/// A sentence in lines that fit into a picture's width.
pub(super) fn lines(sentence: &str) -> Vec<String> {
    const MOST: usize = 130;
    let mut lines = vec![String::new()];
    for word in sentence.split(' ') {
        let last = lines.last_mut().expect("there is a first line");
        match last.len() {
            0 => last.push_str(word),
            n if n + word.len() < MOST => last.extend([" ", word]),
            _ => lines.push(format!("    {word}")),
        }
    }
    lines
}

fn said(e: impl std::fmt::Display) -> String {
    e.to_string()
}

fn text(size: i32) -> TextStyle<'static> {
    (FONT, size).into_font().color(&INK)
}

fn draw_title<B: DrawingBackend>(area: &DrawingArea<B, Shift>, shown: &Shown<'_>) -> Drawn {
    let f = &shown.of.figures;
    let hypothesis = match f.hypothesis {
        Hypothesis::OneSignal => "one signal".to_string(),
        Hypothesis::TwoSignalCw { offset_hz } => format!("two signals, {offset_hz:+.1} Hz"),
        Hypothesis::NonCw => "something fills the gaps".to_string(),
        Hypothesis::Unresolved => "unresolved".to_string(),
        _ => "unknown".to_string(),
    };
    let buffer = if f.taken { "taken off" } else { "kept" };
    let name = shown.of.name.rsplit('/').next().unwrap_or("");
    let line = format!(
        "{name}: {hypothesis}, {buffer}   ({} samples at {} a second, carrier {:.2} Hz)",
        f.samples, shown.of.rate, f.carrier_hz
    );
    area.draw_text(&line, &text(LARGE), (LEFT as i32, 20)).map_err(said)?;
    shown.reasons.iter().enumerate().try_for_each(|(i, reason)| {
        let below = (TITLE - 8 + REASON * i as u32) as i32;
        area.draw_text(reason, &text(SMALL), (LEFT as i32, below)).map_err(said)
    })
}

fn draw_row<B: DrawingBackend>(area: &DrawingArea<B, Shift>, shown: &Shown<'_>) -> Drawn {
    let row = &shown.row;
    let top = trace::top(&[row]);
    let mut chart = ChartBuilder::on(area)
        .set_label_area_size(LabelAreaPosition::Left, LEFT)
        .set_label_area_size(LabelAreaPosition::Bottom, 34)
        .margin_top(CAPTION)
        .margin_right(RIGHT)
        .build_cartesian_2d(0.0..shown.seconds, 0.0..top)
        .map_err(said)?;
    let shades = shown.of.elements.iter().map(|k| {
        let (from, to) = (k.element.start / shown.of.rate, k.element.end / shown.of.rate);
        Rectangle::new([(from, 0.0), (to, top)], SHADE.filled())
    });
    chart.draw_series(shades).map_err(said)?;
    mesh(&mut chart)?;
    draw_trace(&mut chart, shown, row, LINE, 2)?;
    if let Some(threshold) = shown.threshold {
        chart.draw_series(dashes(shown.seconds, threshold)).map_err(said)?;
        note(&chart, "threshold", (shown.seconds, threshold))?;
    }
    caption(area, "Amplitude at the strong sender's carrier. Listed key-downs are shaded.")
}

/// A panel's caption, above its plot.
fn caption<B: DrawingBackend>(area: &DrawingArea<B, Shift>, words: &str) -> Drawn {
    area.draw_text(words, &text(SMALL), (LEFT as i32, 6)).map_err(said)
}

/// An amplitude row as a line.
fn draw_trace<B: DrawingBackend>(
    chart: &mut Chart<'_, B>,
    shown: &Shown<'_>,
    row: &[f64],
    colour: RGBColor,
    width: u32,
) -> Drawn {
    let columns = chart.plotting_area().dim_in_pixel().0 as usize;
    let point = |i: usize| (seconds_at(shown, i), row[i]);
    if row.len() > 3 * columns {
        // Of each column what the row covers there: no lower than a pixel, and half a column wider, so that none is
        // left out in the rounding to pixels.
        let (pixel, half) = (chart.y_range().end / 300.0, row.len() / columns / 2 + 1);
        let bars = trace::columns(row, columns).map(|c| {
            let (from, to) = (seconds_at(shown, c.from), seconds_at(shown, c.to + half));
            Rectangle::new([(from, c.least), (to, c.largest.max(c.least + pixel))], colour.filled())
        });
        return chart.draw_series(bars).map(|_| ()).map_err(said);
    }
    let style = colour.stroke_width(width);
    if shown.vectors {
        let all: Vec<(f64, f64)> = (0..row.len()).map(point).collect();
        return chart.draw_series([PathElement::new(all, style)]).map(|_| ()).map_err(said);
    }
    // In pixels from point to point: where a thick line turns back sharply, its corner would be drawn far out.
    let parts = (1..row.len()).map(|i| PathElement::new([point(i - 1), point(i)], style));
    chart.draw_series(parts).map(|_| ()).map_err(said)
}

/// A dashed line across the panel.
fn dashes(seconds: f64, level: f64) -> impl Iterator<Item = PathElement<(f64, f64)>> {
    const DASHES: usize = 80;
    let pitch = seconds / DASHES as f64;
    (0..DASHES).map(move |i| {
        let from = pitch * i as f64;
        PathElement::new([(from, level), (from + 0.6 * pitch, level)], LIMIT.stroke_width(3))
    })
}

/// The time of the middle of what a row's number covers.
fn seconds_at(shown: &Shown<'_>, i: usize) -> f64 {
    let window = shown.of.figures.window;
    ((i * (window / 8)) as f64 + (window as f64 - 1.0) / 2.0) / shown.of.rate
}

type Chart<'a, B> =
    ChartContext<'a, B, Cartesian2d<plotters::coord::types::RangedCoordf64, plotters::coord::types::RangedCoordf64>>;

/// Axes with numbers and no mesh.
fn mesh<B: DrawingBackend>(chart: &mut Chart<'_, B>) -> Drawn {
    chart
        .configure_mesh()
        .disable_mesh()
        .axis_style(INK)
        .label_style(text(SMALL))
        .x_labels(12)
        .y_labels(5)
        .x_label_formatter(&|x| format!("{} s", (x * 1e6).round() / 1e6))
        .draw()
        .map_err(said)
}

/// A word that ends at this place and stands above it, on white.
fn note<B: DrawingBackend>(chart: &Chart<'_, B>, words: &str, at: (f64, f64)) -> Drawn {
    let plot = chart.plotting_area();
    let area = plot.strip_coord_spec();
    let ((x, y), (left, top)) = (plot.map_coordinate(&at), area.get_base_pixel());
    let style = text(SMALL).pos(Pos::new(HPos::Right, VPos::Bottom));
    let (width, height) = area.estimate_text_size(words, &style).map_err(said)?;
    let (right, bottom) = (x - left - 8, y - top - 5);
    let ground = [(right - width as i32 - 6, bottom - height as i32 - 1), (right + 5, bottom + 1)];
    area.draw(&Rectangle::new(ground, WHITE.mix(0.9).filled())).map_err(said)?;
    area.draw(&Text::new(words.to_string(), (right, bottom), style)).map_err(said)
}

fn draw_lanes<B: DrawingBackend>(area: &DrawingArea<B, Shift>, shown: &Shown<'_>) -> Drawn {
    let (width, height) = area.dim_in_pixel();
    let (left, right) = (LEFT as f64, (width - RIGHT) as f64);
    let (above, below) = (CAPTION as f64, 10.0);
    let pitch = (height as f64 - above - below) / shown.lanes.len() as f64;
    let x = |sample: f64| (left + (right - left) * (sample / shown.of.rate / shown.seconds).clamp(0.0, 1.0)) as i32;
    for (i, lane) in shown.lanes.iter().enumerate() {
        let (from, to) = ((above + pitch * i as f64) as i32, (above + pitch * (i + 1) as f64) as i32);
        if i % 2 == 0 {
            let stripe = Rectangle::new([(left as i32, from), (right as i32, to)], STRIPE.filled());
            area.draw(&stripe).map_err(said)?;
        }
        let style = text(SMALL).pos(Pos::new(HPos::Right, VPos::Center));
        let name = lane.count.map_or_else(|| lane.name.to_string(), |count| format!("{} {count}", lane.name));
        area.draw(&Text::new(name, (left as i32 - 10, (from + to) / 2), style)).map_err(said)?;
        for (a, b) in bars(lane, x) {
            let bar = Rectangle::new([(a, from + 5), (b, to - 5)], ink(lane).filled());
            area.draw(&bar).map_err(said)?;
        }
    }
    caption(
        area,
        "Key-downs listed and short, listed ones fitted and skipped, the class of each block, what was taken off.",
    )
}

/// A lane's bars in pixels, those that touch drawn as one, none thinner than a pixel.
fn bars(lane: &Lane, x: impl Fn(f64) -> i32) -> Vec<(i32, i32)> {
    let mut out: Vec<(i32, i32)> = Vec::new();
    for &(from, to) in &lane.spans {
        let (a, b) = (x(from), x(to).max(x(from) + 1));
        match out.last_mut() {
            Some(last) if a <= last.1 => last.1 = last.1.max(b),
            _ => out.push((a, b)),
        }
    }
    out
}

/// What is taken off stands out; the rest is told apart by its lane.
fn ink(lane: &Lane) -> RGBColor {
    if lane.name == "taken off" {
        LIMIT
    } else {
        LINE
    }
}

fn draw_neighbour<B: DrawingBackend>(area: &DrawingArea<B, Shift>, shown: &Shown<'_>) -> Drawn {
    let neighbour = match &shown.neighbour {
        Ok(neighbour) => neighbour,
        Err(why) => return caption(area, why),
    };
    let Neighbour { offset_hz, before, after } = neighbour;
    let top = trace::top(&[&before.amplitudes, &after.amplitudes]);
    let mut chart = ChartBuilder::on(area)
        .set_label_area_size(LabelAreaPosition::Left, LEFT)
        .set_label_area_size(LabelAreaPosition::Bottom, 40)
        .margin_top(CAPTION)
        .margin_right(RIGHT)
        .build_cartesian_2d(0.0..shown.seconds, 0.0..top)
        .map_err(said)?;
    mesh(&mut chart)?;
    draw_trace(&mut chart, shown, &before.amplitudes, FAINT, 2)?;
    draw_trace(&mut chart, shown, &after.amplitudes, INK, 2)?;
    let what = if shown.of.figures.taken { "before (light) and after (dark)" } else { "kept, so after is as before" };
    caption(area, &format!("Amplitude at the neighbour's offset, {offset_hz:+.1} Hz from that carrier: {what}."))
}
