//! Prints whom to page at each event of a feed: `page RULE <FEED`.

use std::error::Error;
use std::io::{stdin, Read};

use meadwhistle::Desk;

fn main() -> Result<(), Box<dyn Error>> {
    let path = std::env::args_os().nth(1).ok_or("usage: page RULE <FEED")?;
    let mut desk = Desk::new();
    desk.open(&std::fs::read(path)?)?;
    for event in stdin().lock().bytes() {
        let event = event?;
        for recipient in desk.step(event)?.notices {
            println!("{event:02x}: page recipient {recipient}");
        }
    }
    Ok(())
}
