//! Prints how fast the engine is beside other ways to do the same work, how its time grows, and the memory that it takes. Ratios come
//! first: they say more than times, which are the machine's.

mod arena;
mod boxed;
mod feeds;
mod growth;
mod judging;
mod memory;
mod proposals;
mod rules;
mod running;
mod season;
mod stack;
mod table;
mod text;
mod timing;
mod ways;

fn main() {
    println!(
        "Times are the processor's, the least of {} rounds in which all ways take turns. A ratio below 1: the first is the faster.\n",
        timing::ROUNDS
    );
    running::report();
    println!();
    growth::report();
    println!();
    season::report();
    println!();
    judging::report();
    println!();
    memory::report();
}
