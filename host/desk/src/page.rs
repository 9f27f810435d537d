//! The page of a run: one file, drawn in SVG, without scripts and without anything from elsewhere. The verdict and the table come first, since they are what
//! an adviser looks for; the charts say how it came about.

use crate::book::{Book, Trap};
use crate::chart;
use crate::screen::{catch, source};
use crate::traps::TRAPS;
use std::path::Path;

const STYLE: &str = "
:root { --ink: #1d2a24; --soft: #5d6862; --line: #d5dbd6; --paper: #fbfbf8; --card: #f1f3ee; --catch: #8a3b5c; --hit: #2f6f5e; --miss: #a8611a; --bad: #a32020 }
@media (prefers-color-scheme: dark) {
  :root { --ink: #e6ebe7; --soft: #9aa69f; --line: #3a4640; --paper: #171d1a; --card: #202824; --catch: #d98bab; --hit: #7cc4b0; --miss: #e6a862; --bad: #ff8f8f }
}
body { font: 16px/1.5 system-ui, sans-serif; color: var(--ink); background: var(--paper); max-width: 60rem; margin: 2rem auto; padding: 0 1rem }
h1 { font-size: 1.4rem; margin-bottom: .5rem } h2 { font-size: 1.1rem; margin: 2rem 0 .5rem } p { margin: .5rem 0; color: var(--soft) }
.verdict { font-weight: 600; color: var(--hit); border-left: 4px solid; padding: .25rem 0 .25rem .75rem } .verdict.stale { color: var(--bad) }
.tiles { display: grid; grid-template-columns: repeat(auto-fit, minmax(8.5rem, 1fr)); gap: .75rem; margin: 1rem 0 } .tiles div { background: var(--card); border-radius: 6px; padding: .5rem .75rem }
.tiles b { display: block; font-size: 1.4rem; line-height: 1.2 } .tiles span { color: var(--soft); font-size: .85rem }
svg { width: 100%; height: auto; display: block } text { font: 13px system-ui, sans-serif; fill: var(--soft) }
.name { fill: var(--ink) } .axis { stroke: var(--line) } .catch { stroke: var(--catch); fill: none; stroke-width: 2 }
.dot { fill: var(--catch) } .biofix { stroke: var(--ink); stroke-dasharray: 3 3 } .hit { stroke: var(--hit); fill: none; stroke-width: 2 }
.miss { stroke: var(--miss); fill: none; stroke-width: 2 } .push { stroke: var(--soft) } text.hits { fill: var(--hit) } text.misses { fill: var(--miss) }
.wide { overflow-x: auto } table { border-collapse: collapse; width: 100% } td, th { text-align: left; padding: .35rem 1rem .35rem 0; border-bottom: 1px solid var(--line) }
th { color: var(--soft); font-weight: 500; font-size: .9rem } td.number, th.number { text-align: right } td.number { font-variant-numeric: tabular-nums } td.catch-now { font-weight: 600 }
tr.stale td { color: var(--bad); font-weight: 600 }
";

/// Writes the page, and the folder that it goes to where that is not there yet.
pub fn write(path: &Path, title: &str, book: &Book) -> std::io::Result<()> {
    if let Some(folder) = path.parent().filter(|f| !f.as_os_str().is_empty()) {
        std::fs::create_dir_all(folder)?;
    }
    std::fs::write(path, page(title, book))
}

fn page(title: &str, book: &Book) -> String {
    let title = escaped(title);
    let rows: String = TRAPS
        .iter()
        .zip(&book.traps)
        .map(|(name, trap)| row(name, trap))
        .collect();
    format!(
        "<!doctype html>\n<html lang=\"en\"><head><meta charset=\"utf-8\"><title>{title}</title>\n\
         <meta name=\"viewport\" content=\"width=device-width\"><style>{STYLE}</style></head><body>\n\
         <h1>{title}</h1>\n{}\n{}\n\
         <h2>The traps at the end</h2>\n<div class=\"wide\"><table><tr><th>trap</th><th class=\"number\">catch</th><th>biofix</th><th class=\"number\">read at</th>\
         <th>from</th><th class=\"number\">direct read</th><th>the two agree</th></tr>\n{rows}</table></div>\n\
         <p>Biofix is the first catch that lasts: the first of two catches in a row above zero.</p>\n\
         <h2>Catches as the desk read them</h2>\n{}\n\
         <p>A dot stands where the server was asked; between dots the cache served. A gap means that the server had no catch.</p>\n\
         <h2>Hits and misses</h2>\n{}\n<p>Each stroke below the lines is an invalidation that the server pushed.</p>\n</body></html>\n",
        verdict(book),
        tiles(book),
        chart::strips(book),
        chart::lookups(book),
    )
}

/// Whether the desk can be trusted, in a sentence.
fn verdict(book: &Book) -> String {
    let behind: Vec<&str> = book.behind().into_iter().map(|trap| TRAPS[trap]).collect();
    if behind.is_empty() {
        return "<p class=\"verdict\">Every trap's last reading agrees with the direct read.</p>"
            .into();
    }
    let behind = behind.join(", ");
    format!("<p class=\"verdict stale\">Stale: {behind} never agreed with the direct read.</p>")
}

/// The counts of the run.
fn tiles(book: &Book) -> String {
    let counts = book.counts();
    let served = (100 * counts.hit)
        .checked_div(counts.hit + counts.miss)
        .unwrap_or(0);
    let behind = format!(
        "overtaken, for {} ms at most",
        book.longest_behind.as_millis()
    );
    let again = match book.reconnected {
        1 => "connection made anew",
        _ => "connections made anew",
    };
    let mut tiles = vec![
        (format!("{served}%"), "served from the cache"),
        (counts.hit.to_string(), "hits"),
        (counts.miss.to_string(), "misses"),
        (counts.invalidate.to_string(), "answers invalidated"),
        (book.overtaken.to_string(), behind.as_str()),
    ];
    if book.reconnected > 0 {
        tiles.push((book.reconnected.to_string(), again));
    }
    let tile =
        |(number, name): (String, &str)| format!("<div><b>{number}</b><span>{name}</span></div>");
    format!(
        "<div class=\"tiles\">{}</div>",
        tiles.into_iter().map(tile).collect::<String>()
    )
}

fn row(name: &str, trap: &Trap) -> String {
    let Some(last) = &trap.last else {
        return String::new();
    };
    let biofix = match trap.biofix {
        Some(at) => format!("at {:.1} s", at.as_secs_f64()),
        None => "none in this run".into(),
    };
    let (class, agrees) = match last.agrees() {
        true => ("", "yes"),
        false => (" class=\"stale\"", "NO"),
    };
    format!(
        "<tr{class}><td>{name}</td><td class=\"number catch-now\">{}</td><td>{biofix}</td><td class=\"number\">{:.1} s</td><td>{}</td>\
         <td class=\"number\">{}</td><td>{agrees}</td></tr>\n",
        catch(last.catch),
        last.at.as_secs_f64(),
        source(last.source),
        catch(last.direct),
    )
}

fn escaped(text: &str) -> String {
    text.replace('&', "&amp;")
        .replace('<', "&lt;")
        .replace('>', "&gt;")
}

#[cfg(test)]
mod tests {
    use super::*;
    use crate::book::Reading;
    use crate::cached::Source;
    use redis_cache::CacheStatistics;
    use std::time::Duration;

    #[test]
    fn a_page_of_nothing_is_a_page() {
        let page = page("a <b> & c", &Book::new());
        assert!(page.contains("<h1>a &lt;b&gt; &amp; c</h1>"));
        assert!(page.ends_with("</html>\n"));
    }

    /// A reading that never agreed is told first of all, and in its row.
    #[test]
    fn a_stale_reading_is_told() {
        let mut book = Book::new();
        book.read(Reading {
            at: Duration::from_secs(1),
            trap: 2,
            catch: Some(0),
            source: Source::Cache,
            direct: Some(5),
            counts: CacheStatistics::default(),
        });
        let page = page("a run", &book);
        assert!(page.contains("Stale: hedge never agreed with the direct read."));
        assert_eq!(page.matches("<tr class=\"stale\">").count(), 1);
    }
}
