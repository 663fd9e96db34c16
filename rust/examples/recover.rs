//! Reads a frame from a file, or from standard input without one, runs its passes, and prints the result or the refusal:
//! what the proved program `recover` prints for it.
use projective_grid_verified::Frame;
use std::io::{self, Read, Write};
use std::{env, fs};

fn main() -> io::Result<()> {
    let mut text = Vec::new();
    match env::args_os().nth(1) {
        Some(path) => text = fs::read(path)?,
        None => {
            io::stdin().lock().read_to_end(&mut text)?;
        }
    }
    let said = match Frame::parse(&text) {
        Ok(frame) => frame.recover().text(),
        Err(refused) => refused.text(),
    };
    io::stdout().write_all(&said)
}
