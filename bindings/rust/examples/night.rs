//! Holds a night at the railway: three stations write their timetables into one container, which goes to a file and is read again.
//!
//!     cargo run --example night night.sion

use lapurmihi::{ByteOrder, Container, Plan, Refusal};
use std::error::Error;
use std::fs::{self, File};
use std::io::{self, Write};

/// Each station's rank, and the bytes that it requests for a chunk; the blocksize is 512, so that each chunk holds 512.
const STATIONS: [(u64, u64); 3] = [(40, 100), (7, 200), (12, 500)];

fn main() -> Result<(), Box<dyn Error>> {
    let file = std::env::args_os().nth(1).ok_or("usage: night FILE")?;

    // the evening: a plan, the memory that it needs, and the opening
    let plan = Plan::new(512).byte_order(ByteOrder::Big).prefix("railway/night").blocks(4);
    let plan = plan.tasks(STATIONS);
    let needs = plan.needs()?;
    let (mut image, mut table) = (vec![0; needs.image], vec![0; needs.cells]);
    let mut session = plan.open(&mut image, &mut table)?;

    // the night: a line that has to stay whole is a request, and a text of any length a stream
    session.write(1, b"22:10 to Irun, platform 1\n")?;
    session.write(1, b"22:41 to Hendaia, platform 3\n")?;
    let longer = "23:18 to Bilbao, platform 1, calls at every station\n".repeat(10);
    assert_eq!(session.write(2, longer.as_bytes()), Err(Refusal::TooLong)); // nothing of it is stored
    session.write(2, b"23:18 to Bilbao, platform 1\n")?;
    let mut writer = session.writer(3)?;
    for track in 1..=45 {
        writeln!(writer, "00:30 track {track} closed until 04:00")?;
    }
    println!("{} bytes of closed tracks", writer.stored());

    // the morning: the container to the drive, and only then under its name
    let mut part = file.clone();
    part.push(".part");
    let mut made = File::create(&part)?;
    made.write_all(session.close()?)?;
    made.sync_all()?;
    fs::rename(&part, &file)?;

    // the station: nothing is shown that was not accepted
    let container = Container::open(&file)?;
    for task in container.tasks() {
        println!("\nrank {}, {} bytes in {} chunks", task.rank(), task.total(), task.chunks_used());
        io::copy(&mut task.stream(), &mut io::stdout())?;
    }
    Ok(())
}
