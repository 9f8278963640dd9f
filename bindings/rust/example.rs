//! Prints the fixed text of the job on standard input and its layout, and checks the layout: what the programs `house`, `route` and `check`
//! print, one behind the other. A refused job is told once.

use std::io::{self, Read, Write};

fn main() -> io::Result<()> {
    let mut job = Vec::new();
    // one byte more than a job may have, so that a job too long is seen
    io::stdin().take(hankuribo::MOST_BYTES as u64 + 1).read_to_end(&mut job)?;
    match hankuribo::house_to_vec(&job).and_then(|fixed| Ok((fixed, hankuribo::route_to_vec(&job)?))) {
        Err(refusal) => println!("{}", refusal),
        Ok((fixed, layout)) => {
            io::stdout().write_all(&fixed)?;
            io::stdout().write_all(&layout)?;
            println!("{}", hankuribo::check(&job, &layout));
        }
    }
    Ok(())
}
