//! What is shown while it runs: a table, or a line for each event.

use crate::book::{Book, Reading};
use crate::cached::Source;
use crate::traps::TRAPS;
use std::collections::VecDeque;
use std::time::Duration;

/// How many events stand below the table.
const SHOWN: usize = 8;

pub struct Screen {
    plain: bool,
    title: String,
    events: VecDeque<String>,
}

impl Screen {
    pub fn new(plain: bool, title: String) -> Self {
        if plain {
            println!("{title}");
        } else {
            print!("\x1b[2J");
        }
        Screen {
            plain,
            title,
            events: VecDeque::new(),
        }
    }

    /// An event in words. Below the table only the last ones stay.
    pub fn event(&mut self, at: Duration, words: String) {
        let line = format!("{:8.3} {words}", at.as_secs_f64());
        if self.plain {
            println!("{line}");
            return;
        }
        self.events.push_back(line);
        if self.events.len() > SHOWN {
            self.events.pop_front();
        }
    }

    /// A reading; those that the cache served are told one by one in the plain form alone.
    pub fn reading(&mut self, reading: &Reading) {
        if self.plain || reading.source == Source::Server {
            let counts = &reading.counts;
            let words = format!(
                "read {} {} {} direct {} hits {} misses {} invalidations {}",
                TRAPS[reading.trap],
                catch(reading.catch),
                source(reading.source),
                catch(reading.direct),
                counts.hit,
                counts.miss,
                counts.invalidate
            );
            self.event(reading.at, words);
        }
    }

    /// Draws the table anew.
    pub fn draw(&self, at: Duration, book: &Book) {
        if self.plain {
            return;
        }
        let mut text = format!("\x1b[H\x1b[J{}   {:.1} s\n\n", self.title, at.as_secs_f64());
        text += &table(book);
        text += &format!("\n{}\n\n", counts(book));
        for event in &self.events {
            text += &format!("{event}\n");
        }
        print!("{text}");
        let _ = std::io::Write::flush(&mut std::io::stdout());
    }
}

/// The traps, each in a line.
pub fn table(book: &Book) -> String {
    let mut text = String::from("trap      catch   read at   from     direct read   biofix\n");
    for (name, trap) in TRAPS.iter().zip(&book.traps) {
        let Some(last) = &trap.last else { continue };
        let biofix = match trap.biofix {
            Some(at) => format!("at {:.1} s", at.as_secs_f64()),
            None => "not yet".into(),
        };
        let note = if last.agrees() { "" } else { " (ahead)" };
        text += &format!(
            "{name:<8}  {:>5}  {:>6.1} s   {:<6}   {:<11}   {biofix}\n",
            catch(last.catch),
            last.at.as_secs_f64(),
            source(last.source),
            format!("{}{note}", catch(last.direct)),
        );
    }
    text
}

/// The counts and how the readings compare with the direct ones.
pub fn counts(book: &Book) -> String {
    let counts = book.counts();
    format!(
        "hits {}   misses {}   invalidations {}   pushes {}   readings {}, overtaken {} (for {} ms at most)",
        counts.hit,
        counts.miss,
        counts.invalidate,
        book.pushes.len(),
        book.readings.len(),
        book.overtaken,
        book.longest_behind.as_millis()
    )
}

/// A catch in a word: a dash where the server has none.
pub fn catch(catch: Option<u32>) -> String {
    catch.map_or("-".into(), |n| n.to_string())
}

pub fn source(source: Source) -> &'static str {
    match source {
        Source::Cache => "cache",
        Source::Server => "server",
    }
}
