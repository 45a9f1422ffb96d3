//! The lines as tables: for the terminal, and for the BENCHMARKS.md of a processor.

use std::fmt::Write;

use crate::{
    contest::Who,
    line::{name, Line, Part},
};

/// Whose figures a line's row has: the library's, and those that it is held to.
const COLUMNS: [Who; 5] = [Who::Library, Who::Bitvec, Who::Plain, Who::Checked, Who::Memory];

/// A number of three or so digits; a dash for none.
fn short(number: Option<f64>) -> String {
    match number {
        None => "-".to_string(),
        Some(n) if n >= 100.0 => format!("{n:.0}"),
        Some(n) if n >= 10.0 => format!("{n:.1}"),
        Some(n) => format!("{n:.2}"),
    }
}

/// The cells that a line's row begins with: job, width, order.
fn kind(job: &str, line: &Line) -> Vec<String> {
    vec![job.to_string(), line.width.to_string(), line.order_name().to_string()]
}

/// A line's cells: job, width, order, words, figures, ratios, bars.
fn cells(line: &Line) -> Vec<String> {
    let mut cells = kind(line.job, line);
    cells.push(line.words.to_string());
    cells.extend(COLUMNS.map(|who| short(line.figure(who))));
    cells.extend(COLUMNS[1..].iter().map(|&who| short(line.ratio(who))));
    cells.push(line.bars_text());
    cells
}

/// A row for each line, below the heads of the columns.
fn down(lines: &[&Line]) -> Vec<Vec<String>> {
    let mut heads = ["job", "W", "order", "words"].map(String::from).to_vec();
    heads.extend(COLUMNS.map(|who| name(who).to_string()));
    heads.extend(COLUMNS[1..].iter().map(|&who| format!("x {}", name(who))));
    heads.push("bars".to_string());
    std::iter::once(heads).chain(lines.iter().map(|line| cells(line))).collect()
}

/// A figure's place in a table across: the cells that its row begins with, and the head of its column.
struct Placed {
    row: Vec<String>,
    column: String,
    figure: String,
}

/// Figures that are beside each other where their rows begin alike, below the heads of the columns.
fn placed(heads: &[&str], figures: impl Iterator<Item = Placed>) -> Vec<Vec<String>> {
    let mut table = vec![heads.iter().map(|head| head.to_string()).collect::<Vec<_>>()];
    for Placed { row, column, figure } in figures {
        let across = table[0].iter().position(|head| *head == column).unwrap_or_else(|| {
            table[0].push(column);
            table[1..].iter_mut().for_each(|cells| cells.push(short(None)));
            table[0].len() - 1
        });
        let down = table.iter().position(|cells| cells.starts_with(&row)).unwrap_or_else(|| {
            let dashes = vec![short(None); table[0].len() - row.len()];
            table.push([row, dashes].concat());
            table.len() - 1
        });
        table[down][across] = figure;
    }
    table
}

/// Everybody's figures, by the last word of the job.
fn across(lines: &[&Line]) -> Vec<Vec<String>> {
    let figures = lines.iter().flat_map(|line| {
        let (job, last) = line.job.rsplit_once(' ').unwrap_or((line.job, ""));
        Who::ALL.into_iter().filter(|&who| line.figure(who).is_some()).map(move |who| {
            let row = [kind(job, line), vec![name(who).to_string()]].concat();
            Placed { row, column: last.to_string(), figure: short(line.figure(who)) }
        })
    });
    placed(&["job", "W", "order", "who"], figures)
}

/// The library's figures, by the length of the row.
fn growth(lines: &[&Line]) -> Vec<Vec<String>> {
    let mut lines = lines.to_vec();
    lines.sort_by_key(|line| line.words);
    let figures = lines.iter().map(|line| Placed {
        row: kind(line.job, line),
        column: format!("{} words", line.words),
        figure: short(line.figure(Who::Library)),
    });
    placed(&["job", "W", "order"], figures)
}

/// The unit of a part's figures.
fn unit(part: Part) -> &'static str {
    if part.is_rate() {
        "GB/s"
    } else {
        "ns"
    }
}

/// The lines of a part.
fn of(part: Part, lines: &[Line]) -> Vec<&Line> {
    lines.iter().filter(|line| line.part == part).collect()
}

/// Prints all lines.
pub fn print(lines: &[Line]) {
    for part in Part::ALL {
        println!("\n{}, {}", part.title(), unit(part));
        let table = if part.is_across() { across(&of(part, lines)) } else { down(&of(part, lines)) };
        for cells in table {
            print!("{:<34}{:>3} {:<5}{:>11} ", cells[0], cells[1], cells[2], cells[3]);
            cells[4..].iter().for_each(|cell| print!(" {cell:>8}"));
            println!();
        }
    }
}

/// How many bars are met and missed, and which are missed.
pub fn summary(lines: &[Line]) -> String {
    let bars = || lines.iter().flat_map(|line| line.bars.iter().map(move |&bar| (line, bar)));
    let met = bars().filter(|(line, bar)| line.meets(*bar)).count();
    let mut text = format!("{met} bars met, {} missed.\n", bars().count() - met);
    for (line, bar) in bars().filter(|(line, bar)| !line.meets(*bar)) {
        writeln!(
            text,
            "- {}, W = {}, {}, {} words: {} of {}, the bar is {}",
            line.job,
            line.width,
            line.order_name(),
            line.words,
            short(line.ratio(bar.against)),
            name(bar.against),
            bar.text()
        )
        .unwrap();
    }
    text
}

/// A table in Markdown, from the heads of the columns and the rows below them.
fn markdown_table(text: &mut String, table: Vec<Vec<String>>) {
    for (n, cells) in table.iter().enumerate() {
        writeln!(text, "| {} |", cells.join(" | ")).unwrap();
        if n == 0 {
            writeln!(text, "|{}", "---|".repeat(cells.len())).unwrap();
        }
    }
}

/// Everything for the BENCHMARKS.md of a processor: the bars first, then a table for each part. Rows and searches that have bars
/// stand there in full, the others as growth.
pub fn markdown(lines: &[Line]) -> String {
    let mut text = summary(lines);
    for part in Part::ALL {
        writeln!(text, "\n### {}, {}\n", part.title(), unit(part)).unwrap();
        let mut lines = of(part, lines);
        if part.is_across() {
            markdown_table(&mut text, across(&lines));
        } else if part.is_rate() {
            let growth = growth(&lines);
            lines.retain(|line| !line.bars.is_empty());
            markdown_table(&mut text, down(&lines));
            writeln!(text, "\nThe library's GB/s by the length of the row:\n").unwrap();
            markdown_table(&mut text, growth);
        } else {
            markdown_table(&mut text, down(&lines));
        }
    }
    text
}
