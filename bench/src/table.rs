use crate::case::Case;
use crate::column::Column;
use crate::options::Options;
use std::fmt::Display;

/// The tables, below what `bench/run` says of the machine.
pub fn table(options: &Options, measured: &[(Case, Vec<Column>)]) -> String {
    let head = std::env::var("BENCH_HEAD").unwrap_or_default();
    let (passes, length, bytes) = (options.passes, options.slice.as_millis(), options.bytes);
    let (together, aside): (Vec<_>, Vec<_>) = measured.iter().partition(|(case, _)| case.aside.is_none());
    let mut tables = Vec::new();
    if !together.is_empty() {
        tables.extend([rates(&together), ratios(&together)]);
    }
    if !aside.is_empty() {
        tables.push(times(&aside));
    }
    tables.push(seats(&measured[0].1));
    format!(
        "# Throughput\n\n{head}- Passes: {passes}, in each {length} ms an engine, or ten times that where threads are put aside; tables of at most \
         {bytes} bytes\n\n\
         Each number is a median, with the quartiles behind it. A ratio is taken within a pass.\n\n{}",
        tables.join("\n"),
    )
}

/// A row, or with a line below it the head of a table.
fn row(first: impl Display, cells: impl IntoIterator<Item = impl Display>) -> String {
    cells.into_iter().fold(format!("| {first} "), |row, cell| format!("{row}| {cell} ")) + "|\n"
}

fn title(row: String) -> String {
    let line = "|---".repeat(row.matches('|').count() - 1);
    format!("{row}{line}|\n")
}

fn rates(measured: &[&(Case, Vec<Column>)]) -> String {
    let names = measured[0].1.iter().map(|column| column.name);
    let rows = measured.iter().map(|(case, columns)| row(case, columns.iter().map(Column::rate)));
    title(row("Million operations a second", names)) + &rows.collect::<String>()
}

fn ratios(measured: &[&(Case, Vec<Column>)]) -> String {
    let names = measured[0].1[1..].iter().map(|column| column.name);
    let rows = measured.iter().map(|(case, columns)| {
        let (trie, others) = columns.split_first().expect("the trie is the first");
        let locks = others.iter().filter(|it| it.locks);
        let best = locks.max_by(|one, other| one.rate().middle.total_cmp(&other.rate().middle)).expect("there are locks");
        let first = format!("{} of {}", trie.part_of(best), best.name);
        row(case, [first].into_iter().chain(others.iter().map(|column| trie.part_of(column).to_string())))
    });
    title(row("The trie's throughput as a part of", ["the best lock's"].into_iter().chain(names))) + &rows.collect::<String>()
}

/// How long calls took where threads were put aside, in microseconds.
fn times(measured: &[&(Case, Vec<Column>)]) -> String {
    let parts = ["half", "99 of 100", "999 of 1,000", "9,999 of 10,000", "99,999 of 100,000", "the longest"];
    let titles = ["million operations a second"].into_iter().chain(parts).chain(["calls left out", "suspended, s"]);
    let rows = measured.iter().flat_map(|(case, columns)| columns.iter().map(move |column| (case, column)));
    let rows = rows.map(|(case, column)| {
        let spreads = [column.rate()].into_iter().chain(column.times()).map(|spread| spread.to_string());
        row(format!("{case}: {}", column.name), spreads.chain([column.left_out.to_string(), format!("{:.3}", column.suspended.as_secs_f64())]))
    });
    title(row("Microseconds of a call", titles)) + &rows.collect::<String>()
}

fn seats(columns: &[Column]) -> String {
    let rows = columns.iter().map(|column| row(column.name, [format!("`{}`", column.seat)]));
    title(row("Engine", ["What its threads work with"])) + &rows.collect::<String>()
}
