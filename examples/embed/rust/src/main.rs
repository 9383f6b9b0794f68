//! The hub of hub.c in Rust: each site takes the messages of a file one by one, the sites exchange what they hold, and each makes its
//! status text on a thread of its own. The text is printed if it is the same at all of them. Refused lines go to standard error.
//!
//!     NILUPPANG_LIB_DIR=/usr/local/lib cargo run -- ../../hub-morning.site1 ../../hub-morning.site2 ../../hub-morning.site3

mod site;

use site::{Refused, Site, Taken};
use std::error::Error;
use std::io::{self, Write};
use std::{env, fs, process, thread};

const MEMORY: u8 = 65;

/// A site with the messages of a file. What is not a message is printed, and left out.
fn site_of(number: u16, group: u16, file: &str) -> Result<Site, Box<dyn Error>> {
    let text = fs::read(file)?;
    let mut site = Site::open(number, group)?;
    let mut repeats = 0;
    for (place, line) in (1..).zip(text.split(|byte| *byte == b'\n')) {
        if line.iter().all(u8::is_ascii_whitespace) {
            continue;
        }
        match site.take(line) {
            Ok(Taken::Fresh(_)) => {}
            Ok(Taken::Repeat) => repeats += 1,
            Err(refused) if refused.number == MEMORY => return Err(refused.into()),
            Err(refused) => eprintln!("site {number} line {place}: {refused}"), // such as `36 DbtrAcct 2`
        }
    }
    eprintln!("site {number}: {repeats} lines came again");
    Ok(site)
}

/// One site is brought what it lacks and another one holds.
fn bring(giver: &mut Site, taker: &mut Site) -> Result<u64, Refused> {
    let vector = taker.vector_text()?;
    let delta = giver.cut(&vector)?;
    taker.accept(&delta)
}

/// Each site gives to the first, which then gives to each.
fn exchange(sites: &mut [Site]) -> Result<(), Refused> {
    if let Some((first, others)) = sites.split_first_mut() {
        for other in others.iter_mut() {
            bring(other, first)?;
        }
        for other in others {
            bring(first, other)?;
        }
    }
    Ok(())
}

/// The status text of each site, made on a thread of its own.
fn status_texts(sites: Vec<Site>) -> Result<Vec<Vec<u8>>, Box<dyn Error>> {
    let asked: Vec<_> = sites
        .into_iter()
        .map(|mut site| thread::spawn(move || site.status_text()))
        .collect();
    let mut texts = Vec::new();
    for thread in asked {
        texts.push(thread.join().map_err(|_| "a thread failed")??);
    }
    Ok(texts)
}

fn run(files: &[String]) -> Result<(), Box<dyn Error>> {
    let group = u16::try_from(files.len())?;
    let mut sites = Vec::new();
    for (number, file) in (1..).zip(files) {
        sites.push(site_of(number, group, file)?);
    }
    exchange(&mut sites)?;
    let texts = status_texts(sites)?;
    if texts.iter().any(|text| *text != texts[0]) {
        return Err("two sites differ".into());
    }
    io::stdout().write_all(&texts[0])?;
    Ok(())
}

fn main() {
    let files: Vec<String> = env::args().skip(1).collect();
    if files.is_empty() {
        eprintln!("usage: hub FILE..");
        process::exit(2);
    }
    if let Err(error) = run(&files) {
        eprintln!("hub: {error}");
        process::exit(2);
    }
}
