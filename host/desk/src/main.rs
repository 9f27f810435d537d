//! An adviser's desk on a real Redis server: traps post their catches, the desk reads them through the cache, and a direct read
//! stands beside each reading. `--help` says the rest.

mod book;
mod cached;
mod chart;
mod direct;
mod options;
mod page;
mod screen;
mod server;
mod traps;
mod wire;

use book::{Book, Reading};
use cached::{Cached, Heard, Source};
use direct::Direct;
use options::{Asked, Options, Resp};
use redis_cache::CacheMode;
use screen::Screen;
use server::Server;
use std::io::IsTerminal;
use std::process::ExitCode;
use std::sync::mpsc::{Receiver, channel};
use std::time::{Duration, Instant};
use traps::{Post, TRAPS};

/// How long a reading that was overtaken may take to agree once the traps are still.
const PATIENCE: Duration = Duration::from_secs(60);

fn main() -> ExitCode {
    let asked = match options::parse(std::env::args().skip(1)) {
        Ok(asked) => asked,
        Err(wrong) => {
            eprintln!("{wrong}");
            return ExitCode::from(2);
        }
    };
    let Asked::Run(options) = asked else {
        print!("{}", options::HELP);
        return ExitCode::SUCCESS;
    };
    match run(&options) {
        Ok(true) => ExitCode::SUCCESS,
        Ok(false) => ExitCode::from(1),
        Err(why) => {
            eprintln!("{why}");
            ExitCode::from(2)
        }
    }
}

/// Runs it; whether every reading agreed in the end.
fn run(options: &Options) -> Result<bool, String> {
    let own = match options.address {
        Some(_) => None,
        None => Some(Server::start()?),
    };
    let given = options.address.as_ref();
    let address = given.or(own.as_ref().map(|server| &server.address));
    let address = address.ok_or("there is no address")?.clone();
    let mut direct =
        Direct::connect(&address).map_err(|e| format!("no server at {address}: {e}"))?;
    if own.is_none() {
        only_new_keys(&mut direct)?;
    }
    let (mode, mode_name) = match options.opt_in {
        true => (CacheMode::OptIn, "opt-in"),
        false => (CacheMode::All, "all"),
    };
    let protocol = match options.resp {
        Resp::Two => ", RESP2",
        Resp::Three => "",
    };
    let title =
        format!("Moth traps on the Redis server at {address}, tracking mode {mode_name}{protocol}");
    let plain = options.plain || !std::io::stdout().is_terminal();
    let mut desk = Desk {
        cached: Cached::connect(&address, mode, options.by, options.resp)?,
        direct,
        book: Book::new(),
        screen: Screen::new(plain, title.clone()),
        began: Instant::now(),
    };

    let (posted, posts) = channel();
    let (stop, end) = channel();
    let pause = (options.time / 84).clamp(Duration::from_millis(20), Duration::from_secs(2));
    let server = address.clone();
    let traps = std::thread::spawn(move || traps::post_all(&server, pause, &posted, &end));
    let seen = desk.watch(options.time, &posts);
    drop(stop);
    let ended = traps.join().map_err(|_| "the traps' thread panicked")?;
    ended.map_err(|e| format!("the traps cannot post: {e}"))?;
    seen?;
    let behind = desk.settle(&posts)?;
    desk.direct.delete()?;

    let Desk {
        book,
        screen,
        began,
        ..
    } = desk;
    screen.draw(began.elapsed(), &book);
    println!("\n{}{}", screen::table(&book), screen::counts(&book));
    for &trap in &behind {
        println!("STALE: {} never agreed with the direct read", TRAPS[trap]);
    }
    if behind.is_empty() {
        println!("every trap's last reading agrees with the direct read");
    }
    page::write(&options.page, &title, &book)
        .map_err(|e| format!("{} cannot be written: {e}", options.page.display()))?;
    let page = options.page.canonicalize();
    println!(
        "the page of this run: {}",
        page.unwrap_or(options.page.clone()).display()
    );
    Ok(behind.is_empty())
}

/// On a server that was given, keys that are not this program's are left alone.
fn only_new_keys(direct: &mut Direct) -> Result<(), String> {
    for trap in 0..TRAPS.len() {
        let key = traps::key(trap);
        let there = direct.ask(&format!("EXISTS {key}"));
        if there.map_err(|e| e.to_string())?.as_deref() != Some("0") {
            return Err(format!(
                "the server has a key {key} already, and the traps would write over it: delete it, or give another server"
            ));
        }
    }
    Ok(())
}

impl Direct {
    /// A trap's catch, without a cache.
    fn catch(&mut self, trap: usize) -> Result<Option<u32>, String> {
        let key = traps::key(trap);
        let text = self.ask(&format!("GET {key}")).map_err(|e| e.to_string())?;
        text.map(|text| text.parse().map_err(|_| format!("{key} holds '{text}'")))
            .transpose()
    }

    fn delete(&mut self) -> Result<(), String> {
        for trap in 0..TRAPS.len() {
            self.ask(&format!("DEL {}", traps::key(trap)))
                .map_err(|e| e.to_string())?;
        }
        Ok(())
    }
}

struct Desk {
    cached: Cached,
    direct: Direct,
    book: Book,
    screen: Screen,
    began: Instant,
}

impl Desk {
    /// Reads all traps, over and over for this time.
    fn watch(&mut self, time: Duration, posts: &Receiver<Post>) -> Result<(), String> {
        let pause = (time / 60).min(Duration::from_millis(500));
        while self.began.elapsed() < time {
            self.read_all()?;
            self.cached.listen(pause)?;
            self.note(posts);
            self.screen.draw(self.began.elapsed(), &self.book);
        }
        Ok(())
    }

    /// The traps are still: reads those that were overtaken until they agree, and all of them once. Those that never agree.
    fn settle(&mut self, posts: &Receiver<Post>) -> Result<Vec<usize>, String> {
        let began = Instant::now();
        self.note(posts);
        self.read_all()?;
        loop {
            let behind = self.book.behind();
            if behind.is_empty() || began.elapsed() > PATIENCE {
                return Ok(behind);
            }
            self.cached.listen(Duration::from_millis(20))?;
            self.read(&behind)?;
        }
    }

    fn read_all(&mut self) -> Result<(), String> {
        for traps in self.cached.together() {
            self.read(&traps)?;
        }
        Ok(())
    }

    /// Reads these traps through the cache in one call, and each of them directly. What the cache served was served when the call was planned, so that it is
    /// told before what the server said until the rest of the call was answered.
    fn read(&mut self, traps: &[usize]) -> Result<(), String> {
        let read = self.cached.read(traps)?;
        let (served, fetched): (Vec<_>, Vec<_>) = traps
            .iter()
            .zip(read)
            .partition(|(_, (_, source))| *source == Source::Cache);
        self.tell(served)?;
        self.hear();
        self.tell(fetched)
    }

    fn tell(&mut self, read: Vec<(&usize, (Option<u32>, Source))>) -> Result<(), String> {
        let counts = self.cached.statistics();
        for (&trap, (catch, source)) in read {
            let reading = Reading {
                direct: self.direct.catch(trap)?,
                at: self.began.elapsed(),
                trap,
                catch,
                source,
                counts,
            };
            self.screen.reading(&reading);
            self.book.read(reading);
        }
        Ok(())
    }

    /// Tells what the traps posted and the server said.
    fn note(&mut self, posts: &Receiver<Post>) {
        let at = self.began.elapsed();
        for Post { trap, catch } in posts.try_iter() {
            self.screen
                .event(at, format!("posted {} {catch}", TRAPS[trap]));
        }
        self.hear();
    }

    fn hear(&mut self) {
        let at = self.began.elapsed();
        for heard in self.cached.take_heard() {
            let words = match heard {
                Heard::Push(trap) => format!("push {}", TRAPS[trap]),
                Heard::Reconnected => "reconnected: nothing kept before is served".into(),
            };
            self.screen.event(at, words);
            self.book.heard(at, &heard);
        }
    }
}
