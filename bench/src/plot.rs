//! A dot plot of the times as SVG: a row for each case, a dot for each side, the scale logarithmic.

use std::fmt::Write;

use crate::report::Report;

const LEFT: f64 = 250.0;
const WIDTH: f64 = 620.0;
const TOP: f64 = 56.0;
const ROW: f64 = 18.0;
/// Powers of ten at the scale's ends, in nanoseconds.
const LOWEST: i32 = 0;
const HIGHEST: i32 = 6;

fn colour(title: &str) -> &'static str {
    match title {
        "monitor" => "#0b6e4f",
        "before" => "#7fc8a9",
        "memset" => "#888888",
        "list" => "#c0392b",
        "tree" => "#e59866",
        "shadow" => "#1f5fa8",
        _ => "#8e5ea2",
    }
}

fn across(time: f64) -> f64 {
    let part = (time.max(1.0).log10() - f64::from(LOWEST)) / f64::from(HIGHEST - LOWEST);
    LEFT + WIDTH * part.clamp(0.0, 1.0)
}

pub fn plot(report: &Report) -> String {
    let height = TOP + ROW * report.plan.cases.len() as f64 + 20.0;
    let whole = LEFT + WIDTH + 30.0;
    let mut svg = format!(
        "<svg xmlns=\"http://www.w3.org/2000/svg\" viewBox=\"0 0 {whole} {height}\" font-family=\"sans-serif\" font-size=\"11\">\n\
         <rect width=\"{whole}\" height=\"{height}\" fill=\"white\"/>\n\
         <text x=\"{LEFT}\" y=\"14\">Nanoseconds a call (a whole run for the replays divided by its calls), logarithmic</text>\n"
    );
    legend(report, &mut svg);
    for power in LOWEST..=HIGHEST {
        let x = across(10f64.powi(power));
        let label = ["1 ns", "10", "100", "1 µs", "10", "100", "1 ms"][(power - LOWEST) as usize];
        let bottom = height - 14.0;
        let _ = writeln!(
            svg,
            "<line x1=\"{x}\" y1=\"{TOP}\" x2=\"{x}\" y2=\"{bottom}\" stroke=\"#ddd\"/><text x=\"{x}\" y=\"{}\" text-anchor=\"middle\" fill=\"#555\">{label}</text>",
            TOP - 6.0
        );
    }
    for (index, case) in report.plan.cases.iter().enumerate() {
        let y = TOP + ROW * (index as f64 + 0.7);
        let _ = writeln!(
            svg,
            "<text x=\"{}\" y=\"{}\" text-anchor=\"end\">{}</text>",
            LEFT - 8.0,
            y + 4.0,
            case.title
        );
        // The library's own dot lies on top.
        for side in (0..report.titles.len()).rev() {
            if let Some(time) = report.time(index, side) {
                let (title, radius) = (report.titles[side], if side == 0 { 4.5 } else { 3.5 });
                let _ = writeln!(
                    svg,
                    "<circle cx=\"{:.1}\" cy=\"{y:.1}\" r=\"{radius}\" fill=\"{}\"><title>{title}: {time:.1} ns</title></circle>",
                    across(time),
                    colour(title)
                );
            }
        }
    }
    svg += "</svg>\n";
    svg
}

fn legend(report: &Report, svg: &mut String) {
    for (index, title) in report.titles.iter().enumerate() {
        let x = LEFT + 90.0 * index as f64;
        let _ = writeln!(
            svg,
            "<circle cx=\"{}\" cy=\"28\" r=\"4\" fill=\"{}\"/><text x=\"{}\" y=\"32\">{title}</text>",
            x + 4.0,
            colour(title),
            x + 12.0
        );
    }
}
