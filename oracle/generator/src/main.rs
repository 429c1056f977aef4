//! Writes box scripts: whole small spaces, and seeded ones around every boundary.

mod damage;
mod random;
mod shape;
mod small;

use std::io::{self, Write};

fn main() -> io::Result<()> {
    let words: Vec<String> = std::env::args().skip(1).collect();
    let words: Vec<&str> = words.iter().map(String::as_str).collect();
    let mut out = Vec::new();
    match words.as_slice() {
        ["list"] => {
            for (name, _) in small::parts() {
                out.extend_from_slice(format!("{name}\n").as_bytes());
            }
        }
        ["small", wanted] => match small::parts().into_iter().find(|(name, _)| name == wanted) {
            Some((_, write)) => write(&mut out),
            None => usage(),
        },
        ["random", seed, lines] => match (seed.parse(), lines.parse()) {
            (Ok(seed), Ok(lines)) => out = random::script(seed, lines),
            _ => usage(),
        },
        _ => usage(),
    }
    io::stdout().write_all(&out)
}

fn usage() {
    eprintln!("scripts list | small PART | random SEED LINES");
    std::process::exit(2);
}
