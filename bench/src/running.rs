//! Running the swap rule: the engine's run and step beside each other and beside every peer.

use second::examples::swap_file;

use crate::feeds::{Feed, ALIVE, ANY, BUSY};
use crate::text;
use crate::ways::{self, Way, RUN, SECOND_RUN, SECOND_STEP, STEP, STRAIGHTFORWARD, TABLE, TUNED};

const MILLIONS: usize = 10;
const WAYS: [Way; 7] = [
    RUN,
    STEP,
    TUNED,
    STRAIGHTFORWARD,
    SECOND_RUN,
    SECOND_STEP,
    TABLE,
];

pub fn report() {
    println!("The swap rule, {MILLIONS} million events: the time of run and of step over that of each way");
    [BUSY, ANY, ALIVE].iter().for_each(report_on);
}

fn report_on(feed: &Feed) {
    let events = feed.events(MILLIONS * 1_000_000);
    let times = ways::times(WAYS, &swap_file(), &events);
    let [run, step, ..] = times;
    println!();
    text::line(feed.name, &["run /", "step /", "ns an event", "events"]);
    for (way, time) in WAYS.iter().zip(times) {
        let mut cells = [run / time, step / time, time].map(text::figure).to_vec();
        cells.push(way.share(&events).len().to_string());
        text::line(&format!("  {}", way.name), &cells);
    }
}
