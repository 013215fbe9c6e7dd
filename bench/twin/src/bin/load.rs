//! load SEED THREADS WANTED < FILE    the frames that a load gives, or its refusal's line

use std::io::{self, Read, Write};

use twin::lines::put_refusal;
use twin::load::load;

fn main() -> io::Result<()> {
    let arguments: Vec<String> = std::env::args().skip(1).collect();
    let [seed, threads, wanted] = &arguments[..] else {
        return Err(io::Error::other("usage: load SEED THREADS WANTED < FILE"));
    };
    let number = |text: &String| text.parse::<usize>().map_err(io::Error::other);
    let (seed, threads, wanted) = (number(seed)?, number(threads)?, number(wanted)?);
    let mut file = Vec::new();
    io::stdin().read_to_end(&mut file)?;
    let mut lines = vec![0; 7 * wanted];
    match load(&file, seed as u32, threads, wanted, &mut lines) {
        Ok(count) => lines.truncate(7 * count),
        Err(refusal) => {
            lines.clear();
            put_refusal(&mut lines, refusal);
        }
    }
    io::stdout().write_all(&lines)
}
