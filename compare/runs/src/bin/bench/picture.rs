//! The rates of long rows as a picture.

use std::fmt::Write;

use crate::{
    contest::Who,
    line::{name, Line},
};

/// Where bars begin, left of which the jobs are named.
const LEFT: f64 = 250.0;
/// How long the longest bar is.
const WIDE: f64 = 620.0;
/// How high a bar is.
const BAR: f64 = 7.0;
/// What lies between the bars of two jobs.
const GAP: f64 = 8.0;
/// The rates at the axis' ends, in GB/s. The axis is logarithmic.
const LEAST: f64 = 0.1;
const MOST: f64 = 100.0;

/// A contestant's colour.
fn colour(who: Who) -> &'static str {
    match who {
        Who::Library => "#1f5fa8",
        Who::Bitvec => "#d9822b",
        Who::Plain => "#8a8a8a",
        Who::Checked => "#b04a5a",
        Who::Memory => "#4f9d69",
        Who::Eight => "#7a5ba8",
    }
}

/// How far right a rate stands.
fn across(rate: f64) -> f64 {
    let share = (rate.clamp(LEAST, MOST) / LEAST).log10() / (MOST / LEAST).log10();
    LEFT + WIDE * share
}

/// An SVG picture: a group of bars for each line, one for each contestant.
pub fn svg(lines: &[&Line]) -> String {
    let group = |line: &Line| BAR * line.times.iter().flatten().count() as f64 + GAP;
    let top = 60.0;
    let high = top + lines.iter().map(|line| group(line)).sum::<f64>() + 20.0;
    let mut svg = format!(
        "<svg xmlns=\"http://www.w3.org/2000/svg\" viewBox=\"0 0 {} {high}\" font-family=\"sans-serif\" font-size=\"11\">\n\
         <rect width=\"100%\" height=\"100%\" fill=\"white\"/>\n\
         <text x=\"10\" y=\"20\" font-size=\"14\">Rows of 65,536 words, Lsb0: GB/s (logarithmic)</text>\n",
        LEFT + WIDE + 60.0
    );
    legend(&mut svg, lines);
    for rate in [0.1, 0.3, 1.0, 3.0, 10.0, 30.0, 100.0] {
        let x = across(rate);
        writeln!(svg, "<line x1=\"{x:.1}\" y1=\"{top}\" x2=\"{x:.1}\" y2=\"{:.1}\" stroke=\"#dddddd\"/>", high - 15.0).unwrap();
        writeln!(svg, "<text x=\"{x:.1}\" y=\"{:.1}\" text-anchor=\"middle\">{rate}</text>", high - 3.0).unwrap();
    }
    let mut y = top;
    for line in lines {
        let middle = y + (group(line) - GAP) / 2.0 + 4.0;
        writeln!(
            svg,
            "<text x=\"{}\" y=\"{middle:.1}\" text-anchor=\"end\">{}, W = {}</text>",
            LEFT - 6.0,
            line.job,
            line.width
        )
        .unwrap();
        for who in Who::ALL {
            let Some(rate) = line.figure(who) else { continue };
            let (wide, fill) = (across(rate) - LEFT, colour(who));
            writeln!(svg, "<rect x=\"{LEFT}\" y=\"{y:.1}\" width=\"{wide:.1}\" height=\"{}\" fill=\"{fill}\"/>", BAR - 1.0)
                .unwrap();
            writeln!(svg, "<text x=\"{:.1}\" y=\"{:.1}\" font-size=\"7\">{rate:.1}</text>", LEFT + wide + 3.0, y + BAR - 1.0)
                .unwrap();
            y += BAR;
        }
        y += GAP;
    }
    svg + "</svg>\n"
}

/// Which colour is whose, of those who are shown.
fn legend(svg: &mut String, lines: &[&Line]) {
    let shown = |who: &Who| lines.iter().any(|line| line.figure(*who).is_some());
    for (n, who) in Who::ALL.into_iter().filter(shown).enumerate() {
        let x = LEFT + 110.0 * n as f64;
        writeln!(svg, "<rect x=\"{x}\" y=\"34\" width=\"10\" height=\"10\" fill=\"{}\"/>", colour(who)).unwrap();
        writeln!(svg, "<text x=\"{}\" y=\"43\">{}</text>", x + 14.0, name(who)).unwrap();
    }
}
