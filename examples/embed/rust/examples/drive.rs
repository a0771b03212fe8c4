//! A drive in this program's own process: as drive.c, by the crate of this folder.
//!
//! At the top of the repository, after tools/library, or in the folder of a release, which has the library in lib/:
//!
//!   export CARGO_TARGET_DIR=build/rust
//!   cargo run -q --manifest-path examples/embed/rust/Cargo.toml --example drive -- examples/one_read.toml
use lokbrez::{mst, read_at, single, Drive, Record};

/// The phase that the master commands, and the step of the service channel that it sends.
fn cycles() -> [(u8, Option<Record>); 5] {
    let step = |mhs, write, last, element, info| Some(Record { mhs, write, last, element, cyclic: 0, info });
    [
        (0, None),
        (1, step(false, false, false, 0, 0)),
        (2, step(true, true, true, 1, 0x0003)), // open S-0-0003
        (2, step(false, false, true, 7, 0)),    // read its operation data
        (2, step(false, false, false, 0, 0)),
    ]
}

fn main() -> Result<(), Box<dyn std::error::Error>> {
    let document = std::fs::read(std::env::args().nth(1).ok_or("usage: drive RING.toml")?)?;
    let mut drive = Drive::open(&document, 0)?;
    for (number, (phase, step)) in (0..).zip(cycles()) {
        drive.hear_mst(number, Some(&mst(phase)?))?;
        print!("cycle {number} phase {}", drive.phase()?);
        if let Some(sent) = drive.at()? {
            let at = read_at(1, 4, &sent.content)?.ok_or("this isn't an AT of drive 1")?;
            print!(" AT at {} ahs {} info {}", sent.start, u8::from(at.ahs), at.info);
        }
        println!();
        let mdt = step.map(|record| single(1, &record)).transpose()?;
        drive.hear_mdt(mdt.as_deref())?;
    }
    Ok(())
}
