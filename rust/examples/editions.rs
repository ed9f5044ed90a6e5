//! Converts a parcel from one edition to the other.
//!
//!     cargo run --release --example editions widen ../examples/day-and-night.parcel /tmp/day.wide
//!     cargo run --release --example editions narrow ../examples/day-and-night.wide /tmp/day.parcel
//!
//! Prints how many bytes were written, or the number and the place of the first fault; docs/REFERENCE.md says what to do about it.
//! TO is written only after the whole parcel was converted: a refusal leaves it as it was, and the exit status is then 1.
use post_guard::{narrowed, widened, Fault};

const USAGE: &str = "usage: editions widen FROM TO
       editions narrow FROM TO

widen writes a parcel of the first edition, whose edges have addresses of 16 bits, again as one of the second, which has 32 bits.
narrow does the opposite, and refuses a parcel with an address above 65,535.";

fn main() {
    let arguments: Vec<String> = std::env::args().skip(1).collect();
    let [direction, from, to] = &arguments[..] else { stop(2, USAGE) };
    let convert: fn(&[u8]) -> Result<Vec<u8>, Fault> = match direction.as_str() {
        "widen" => |parcel| Ok(widened(parcel)?),
        "narrow" => narrowed,
        other => stop(2, &format!("'{other}' is neither widen nor narrow\n{USAGE}")),
    };

    let bytes = std::fs::read(from).unwrap_or_else(|error| stop(1, &format!("{from}: {error}")));
    match convert(&bytes) {
        Ok(converted) => {
            std::fs::write(to, &converted).unwrap_or_else(|error| stop(1, &format!("{to}: {error}")));
            println!("{} bytes read, {} bytes written", bytes.len(), converted.len());
        }
        Err(fault) => {
            println!("{fault}: {}", fault.refusal);
            std::process::exit(1);
        }
    }
}

fn stop(status: i32, why: &str) -> ! {
    eprintln!("{why}");
    std::process::exit(status);
}
