//! The charts of the page: catches over time, a strip for each trap, and hits and misses added up.

use crate::book::Book;
use crate::cached::Source;
use crate::traps::TRAPS;
use std::fmt::Write;
use std::time::Duration;

const LEFT: f64 = 90.0;
const RIGHT: f64 = 880.0;
const STRIP: f64 = 72.0;
const CHART: f64 = 220.0;

/// A time on the way from left to right.
#[derive(Clone, Copy)]
struct Time(f64);

impl Time {
    fn of(book: &Book) -> Self {
        let end = book.readings.last().map_or(1.0, |r| r.at.as_secs_f64());
        Time(end.max(0.001))
    }

    fn x(self, at: Duration) -> f64 {
        LEFT + (RIGHT - LEFT) * (at.as_secs_f64() / self.0).min(1.0)
    }
}

/// One strip for each trap, all with the same scale.
pub fn strips(book: &Book) -> String {
    let time = Time::of(book);
    let all = book.readings.iter().filter_map(|r| r.catch);
    let most = f64::from(all.max().unwrap_or(0).max(1));
    let height = STRIP * TRAPS.len() as f64 + 24.0;
    let mut svg = head(height, "Catches over time, one strip for each trap");
    for (i, name) in TRAPS.iter().enumerate() {
        let foot = STRIP * (i + 1) as f64 - 4.0;
        let y = |n: u32| foot - (STRIP - 26.0) * f64::from(n) / most;
        let _ = write!(
            svg,
            "<text class=\"name\" x=\"0\" y=\"{:.1}\">{name}</text>",
            foot - 18.0
        );
        svg += &line("axis", (LEFT, foot), (RIGHT, foot));
        let readings: Vec<_> = book.readings.iter().filter(|r| r.trap == i).collect();
        let mut path = String::new();
        for (k, reading) in readings.iter().enumerate() {
            let next = readings.get(k + 1).unwrap_or(reading);
            let (from, to) = (time.x(reading.at), time.x(next.at));
            let Some(n) = reading.catch else { continue };
            let joined = k > 0 && readings[k - 1].catch.is_some();
            let _ = write!(
                path,
                "{}{from:.1} {:.1}H{to:.1}",
                if joined { "L" } else { "M" },
                y(n)
            );
            if reading.source == Source::Server {
                let _ = write!(
                    svg,
                    "<circle class=\"dot\" cx=\"{from:.1}\" cy=\"{:.1}\" r=\"3\"/>",
                    y(n)
                );
            }
        }
        if !path.is_empty() {
            let _ = write!(svg, "<path class=\"catch\" d=\"{path}\"/>");
        }
        if let Some(at) = book.traps[i].biofix {
            let x = time.x(at);
            svg += &line("biofix", (x, foot - STRIP + 20.0), (x, foot));
            // Near the right end the words stand on the other side.
            let (place, anchor) = match x < RIGHT - 90.0 {
                true => (x + 4.0, "start"),
                false => (x - 4.0, "end"),
            };
            let _ = write!(
                svg,
                "<text class=\"name\" x=\"{place:.1}\" y=\"{:.1}\" text-anchor=\"{anchor}\">biofix {:.1} s</text>",
                foot - STRIP + 28.0,
                at.as_secs_f64()
            );
        }
        if let Some(n) = readings.iter().filter_map(|r| r.catch).max() {
            let _ = write!(svg, "<text x=\"0\" y=\"{foot}\">most {n}</text>");
        }
        svg.push('\n');
    }
    svg + &seconds(height - 6.0, time) + "</svg>"
}

/// Hits and misses added up, with the pushes below.
pub fn lookups(book: &Book) -> String {
    let time = Time::of(book);
    let counts = book.counts();
    let most = counts.hit.max(counts.miss).max(1) as f64;
    let foot = CHART - 44.0;
    let y = |n: u64| foot - (foot - 26.0) * n as f64 / most;
    let mut svg = head(CHART, "Hits and misses over time");
    svg += &line("axis", (LEFT, foot), (RIGHT, foot));
    for (class, name, total) in [("hit", "hits", counts.hit), ("miss", "misses", counts.miss)] {
        let points: String = book
            .readings
            .iter()
            .map(|r| {
                let n = if class == "hit" {
                    r.counts.hit
                } else {
                    r.counts.miss
                };
                format!("{:.1},{:.1} ", time.x(r.at), y(n))
            })
            .collect();
        let _ = writeln!(
            svg,
            "<polyline class=\"{class}\" points=\"{}\"/>",
            points.trim_end()
        );
        // Hits above their line and misses below theirs, so that they never meet.
        let at = y(total) + if class == "hit" { -8.0 } else { 18.0 };
        let _ = write!(
            svg,
            "<text class=\"{name}\" x=\"{RIGHT}\" y=\"{at:.1}\" text-anchor=\"end\">{name} {total}</text>"
        );
    }
    for (at, _) in &book.pushes {
        let x = time.x(*at);
        svg += &line("push", (x, foot + 4.0), (x, foot + 14.0));
    }
    svg + &seconds(CHART - 6.0, time) + "</svg>"
}

fn head(height: f64, label: &str) -> String {
    format!("<svg viewBox=\"0 0 900 {height}\" role=\"img\" aria-label=\"{label}\">")
}

fn line(class: &str, from: (f64, f64), to: (f64, f64)) -> String {
    format!(
        "<line class=\"{class}\" x1=\"{:.1}\" y1=\"{:.1}\" x2=\"{:.1}\" y2=\"{:.1}\"/>",
        from.0, from.1, to.0, to.1
    )
}

/// The seconds below a chart.
fn seconds(y: f64, time: Time) -> String {
    (0..=4).fold(String::new(), |mut text, quarter| {
        let at = time.0 * f64::from(quarter) / 4.0;
        let x = time.x(Duration::from_secs_f64(at));
        let _ = write!(
            text,
            "<text x=\"{x:.1}\" y=\"{y}\" text-anchor=\"middle\">{at:.1} s</text>"
        );
        text
    })
}
