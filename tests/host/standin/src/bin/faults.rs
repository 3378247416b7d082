//! `standin-faults TEST` prints the planted faults that a test must see, a line for each: its number, the part of the
//! comparison that finds it, and what is wrong.

fn main() {
    let test = std::env::args().nth(1).expect("standin-faults TEST");
    print!("{}", standin::faults::Fault::list(&test));
}
