//! A site owner's view: how tightly each program is held, and all of them together.
//!
//!     cargo run --release --example figures plain ../examples/post.parcel ../examples/day-and-night.parcel
//!     cargo run --release --example figures memory-guards ../examples/memory-guards.parcel
//!
//! Each parcel gets its figures, or the number and place of its first fault. docs/REFERENCE.md says how to read them.
use post_guard::{report_parcel, Added, Figures, Kind, Largest, Technique, Totals};

const USAGE: &str = "usage: figures plain|memory-guards PARCEL...

The technique is the one that the posts go by: plain for posts with memory protection, memory-guards for posts without it.";

fn main() {
    let mut arguments = std::env::args().skip(1);
    let technique = match arguments.next().as_deref() {
        Some("plain") => Technique::Plain,
        Some("memory-guards") => Technique::MemoryGuards,
        Some(other) => stop(2, &format!("'{other}' is no technique\n{USAGE}")),
        None => stop(2, USAGE),
    };
    let paths: Vec<String> = arguments.collect();
    if paths.is_empty() {
        stop(2, &format!("no parcel is named\n{USAGE}"));
    }

    let mut totals = Totals::fresh();
    let mut counted = 0;
    for (place, path) in paths.iter().enumerate() {
        let parcel = std::fs::read(path).unwrap_or_else(|error| stop(1, &format!("{path}: {error}")));
        println!("{place}: {path}");
        match report_parcel(technique, &parcel) {
            Ok(figures) => print_figures(&figures),
            Err(fault) => println!("  {fault}: {}", fault.refusal),
        }
        match totals.add_parcel(technique, &parcel) {
            Added::Counted => counted += 1,
            Added::WithoutJumps | Added::Refused(_) => println!("  passed over in the totals"),
            Added::Unchanged => println!("  not in the totals, which are full"),
        }
    }
    print_totals(&totals, counted, &paths);
}

fn print_figures(figures: &Figures) {
    let kinds = Kind::ALL.map(|kind| format!("{kind} {}", figures.words_of(kind)));
    println!("  {} words: {}", figures.words.iter().sum::<u16>(), kinds.join(", "));
    println!("  target sets: {}, the largest of {}", figures.sets, figures.largest);
    match figures.freedom {
        Some(freedom) => println!("  freedom: {freedom}"),
        None => println!("  freedom: none, since it has no jumps"),
    }
}

fn print_totals(totals: &Totals, counted: usize, paths: &[String]) {
    println!("all: parcels: {}, counted: {counted}", totals.parcels);
    match totals.largest {
        Some(Largest { parcel, freedom }) => {
            println!("  freedom: {} of {}", totals.edges, totals.possible);
            println!("  largest freedom: {freedom}, {parcel}: {}", paths[usize::from(parcel)]);
        }
        None => println!("  freedom: none, since all were passed over"),
    }
}

fn stop(status: i32, why: &str) -> ! {
    eprintln!("{why}");
    std::process::exit(status);
}
