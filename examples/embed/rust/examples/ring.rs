//! A master and its drives, coupled without bits: as ring.c, by the crate of this folder.
//!
//! At the top of the repository, after tools/library, or in the folder of a release, which has the library in lib/:
//!
//!   export CARGO_TARGET_DIR=build/rust
//!   cargo run -q --manifest-path examples/embed/rust/Cargo.toml --example ring -- examples/one_read.toml
use lokbrez::{Drive, Error, Master, Result};

fn drives_of(document: &[u8]) -> Result<Vec<Drive>> {
    let mut drives = Vec::new();
    loop {
        match Drive::open(document, drives.len()) {
            Ok(drive) => drives.push(drive),
            Err(Error::No) => return Ok(drives),
            Err(error) => return Err(error),
        }
    }
}

fn run_cycle(master: &mut Master, drives: &mut [Drive], cycle: u32) -> Result<()> {
    let mst = master.mst()?;
    for drive in drives.iter_mut() {
        drive.hear_mst(cycle, Some(&mst))?;
    }
    master.hear_mst(Some(&mst))?;
    let mut ats = Vec::new();
    for drive in drives.iter_mut() {
        ats.extend(drive.at()?);
    }
    // Those of one start stay in the order of the ring.
    ats.sort_by_key(|at| at.start);
    for at in &ats {
        master.hear_at(&at.content)?;
    }
    let mdt = master.mdt()?;
    for drive in drives.iter_mut() {
        drive.hear_mdt(mdt.as_ref().map(|mdt| &mdt.content[..]))?;
    }
    master.end_cycle()
}

fn main() -> std::result::Result<(), Box<dyn std::error::Error>> {
    let document = std::fs::read(std::env::args().nth(1).ok_or("usage: ring RING.toml")?)?;
    let mut master = Master::open(&document)?;
    let mut drives = drives_of(&document)?;
    for cycle in 0..300 {
        run_cycle(&mut master, &mut drives, cycle)?;
        print!("{}", master.events()?);
    }
    println!("phase {} after 300 cycles", master.command()?);
    Ok(())
}
