//! The chart: speed beside the second engine, on a logarithmic axis. It is readable on a light and on a dark page.

use crate::measure::Row;
use std::fmt::Write;

const LEFT: f64 = 205.0;
const WIDTH: f64 = 560.0;
const TOP: f64 = 92.0;
const BAR: f64 = 13.0;
const GROUP: f64 = 54.0;

const STYLE: &str = "<style>
text { font: 13px system-ui, sans-serif; fill: #1f2328; }
.title { font-size: 16px; font-weight: 600; }
.small { font-size: 11px; }
.grid { stroke: #8c959f; stroke-width: 1; opacity: .35; }
.one { stroke: #57606a; stroke-width: 1.5; }
.proved { fill: #2da44e; } .sql { fill: #bf8700; } .sum { fill: #8c959f; }
@media (prefers-color-scheme: dark) { text { fill: #e6edf3; } .one { stroke: #c9d1d9; } }
</style>";

/// The axis: powers of ten that hold every bar.
struct Axis {
    low: i32,
    high: i32,
}

impl Axis {
    fn of(speeds: impl Iterator<Item = f64>) -> Axis {
        speeds.fold(Axis { low: -1, high: 1 }, |axis, speed| Axis {
            low: axis.low.min(speed.log10().floor() as i32),
            high: axis.high.max(speed.log10().ceil() as i32),
        })
    }

    fn x(&self, speed: f64) -> f64 {
        let span = f64::from(self.high - self.low);
        LEFT + WIDTH * (speed.log10() - f64::from(self.low)) / span
    }
}

/// The bars of one call, by class, each the speed as a multiple of the second engine's.
fn bars(row: &Row) -> Vec<(&'static str, f64)> {
    let mut bars = vec![
        ("proved", 1.0 / row.to_second),
        ("sql", row.to_sql / row.to_second),
    ];
    bars.extend(row.to_sum.map(|times| ("sum", times / row.to_second)));
    bars
}

/// The chart of one book's rows, as SVG.
pub fn draw(title: &str, rows: &[Row]) -> String {
    let axis = Axis::of(rows.iter().flat_map(bars).map(|(_, speed)| speed));
    let bottom = TOP + GROUP * rows.len() as f64;
    let (wide, high) = (LEFT + WIDTH + 70.0, bottom + 52.0);
    let mut svg = format!(
        "<svg xmlns=\"http://www.w3.org/2000/svg\" viewBox=\"0 0 {wide} {high}\" \
         width=\"{wide}\" height=\"{high}\" role=\"img\">\n\
         <title>Speed of each call beside the second engine</title>\n{STYLE}\n"
    );
    text(
        &mut svg,
        "title",
        (12.0, 26.0),
        "start",
        "Speed of each call, second engine = 1",
    );
    let subtitle = format!("{title}; right of the line is faster");
    text(&mut svg, "small", (12.0, 44.0), "start", &subtitle);
    put_legend(&mut svg);
    put_axis(&mut svg, &axis, bottom);
    for (place, row) in rows.iter().enumerate() {
        put_group(&mut svg, &axis, row, TOP + GROUP * place as f64);
    }
    upright(&mut svg, "one", axis.x(1.0), bottom);
    svg.push_str("</svg>\n");
    svg
}

fn text(svg: &mut String, class: &str, (x, y): (f64, f64), anchor: &str, what: &str) {
    let place = format!("x=\"{x:.1}\" y=\"{y:.1}\" text-anchor=\"{anchor}\"");
    let _ = writeln!(svg, "<text class=\"{class}\" {place}>{what}</text>");
}

fn bar(svg: &mut String, class: &str, (x, y): (f64, f64), wide: f64, high: f64) {
    let place = format!("x=\"{x:.1}\" y=\"{y:.1}\" width=\"{wide:.1}\" height=\"{high:.1}\"");
    let _ = writeln!(svg, "<rect class=\"{class}\" {place}/>");
}

/// A line from above the bars to below them.
fn upright(svg: &mut String, class: &str, x: f64, bottom: f64) {
    let top = TOP - 6.0;
    let place = format!("x1=\"{x:.1}\" x2=\"{x:.1}\" y1=\"{top:.1}\" y2=\"{bottom:.1}\"");
    let _ = writeln!(svg, "<line class=\"{class}\" {place}/>");
}

fn put_legend(svg: &mut String) {
    let entries = [
        ("proved", "proved library", 12.0),
        ("sql", "SQLite in memory, used rows not judged", 150.0),
        ("sum", "plain sum of what is scanned", 460.0),
    ];
    for (class, name, x) in entries {
        bar(svg, class, (x, 57.0), 12.0, 12.0);
        text(svg, "name", (x + 18.0, 68.0), "start", name);
    }
}

fn put_axis(svg: &mut String, axis: &Axis, bottom: f64) {
    for power in axis.low..=axis.high {
        let x = axis.x(10_f64.powi(power));
        let whole = 10_u64.pow(power.unsigned_abs());
        let label = if power < 0 {
            format!("1/{whole}")
        } else {
            format!("{whole}")
        };
        upright(svg, "grid", x, bottom);
        text(svg, "small", (x, bottom + 16.0), "middle", &label);
    }
    let title = "calls a second, as a multiple of the second engine's (logarithmic)";
    text(
        svg,
        "small",
        (LEFT + WIDTH / 2.0, bottom + 36.0),
        "middle",
        title,
    );
}

fn put_group(svg: &mut String, axis: &Axis, row: &Row, top: f64) {
    let bars = bars(row);
    let middle = top + BAR * bars.len() as f64 / 2.0 + 4.0;
    text(svg, "name", (LEFT - 12.0, middle), "end", row.name);
    for (place, (class, speed)) in bars.into_iter().enumerate() {
        let (one, end) = (axis.x(1.0), axis.x(speed));
        let y = top + BAR * place as f64;
        let wide = (end - one).abs().max(1.5);
        bar(svg, class, (one.min(end), y), wide, BAR - 1.5);
        text(
            svg,
            "small",
            (one.max(end) + 5.0, y + BAR - 3.0),
            "start",
            &figure(speed),
        );
    }
}

/// A multiple with two figures that count.
fn figure(speed: f64) -> String {
    match speed {
        s if s >= 9.95 => format!("{s:.0}"),
        s if s >= 0.995 => format!("{s:.1}"),
        s if s >= 0.0995 => format!("{s:.2}"),
        s => format!("{s:.3}"),
    }
}
