//! `bench [FILE.csv] [--once N] [GROUP[/CASE]..]`: the groups of measurements, as a table, and as comma-separated values in the file if one is named.
//! Where groups are named, those alone, and of them the cases whose words hold CASE. `--once` times nothing: each case is done N times, for callgrind.
//! docs/BENCHMARK.md says how to read it.

#[cfg(feature = "leaves")]
mod bytes;
mod clock;
mod filled;
mod goals;
#[cfg(feature = "leaves")]
mod hiredis;
#[cfg(feature = "leaves")]
mod leaves;
mod lookup;
mod measure;
mod owned;
#[cfg(feature = "leaves")]
mod packing;
mod pipelines;
#[cfg(feature = "leaves")]
mod resp;
#[path = "../../desk/src/server.rs"]
mod server;

use measure::Table;

fn main() {
    let (mut file, mut once, mut filters) = (None, None, Vec::new());
    let mut arguments = std::env::args().skip(1);
    while let Some(argument) = arguments.next() {
        if argument == "--once" {
            let times = arguments.next().and_then(|times| times.parse().ok());
            once = Some(times.expect("--once is followed by a number"));
        } else if argument.ends_with(".csv") {
            file = Some(argument);
        } else {
            filters.push(argument);
        }
    }
    let mut table = Table::begin(&filters, once);
    #[cfg(feature = "leaves")]
    leaves::measure(&mut table);
    lookup::single(&mut table);
    lookup::empty(&mut table);
    lookup::entries(&mut table);
    lookup::growth(&mut table);
    pipelines::planning(&mut table);
    pipelines::resolving(&mut table);
    owned::cache(&mut table);
    goals::goals(&mut table);
    if let Some(file) = file {
        std::fs::write(&file, table.csv()).expect("the CSV file is written");
        println!("\nas comma-separated values: {file}");
    }
}
