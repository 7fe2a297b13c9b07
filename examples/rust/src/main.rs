//! Lists a PKCS #12 file, and says which certificate bag belongs to each of its key bags, as examples/c/list.c does.
//!
//!     p12-list [FILE]      standard input without FILE
//!
//! Exit status 0 for a file that is accepted, 1 for one that is refused, 2 where it can't be read.
#![forbid(unsafe_code)]

use std::fs::File;
use std::io::{self, Read, Write};
use std::process::ExitCode;

/// At most one byte more than the longest file has, so that a longer one is refused.
fn contents(path: Option<&str>) -> io::Result<Vec<u8>> {
    let mut file = Vec::new();
    let most = p12::FILE_BYTES as u64 + 1;
    match path {
        Some(path) => File::open(path)?.take(most).read_to_end(&mut file)?,
        None => io::stdin().take(most).read_to_end(&mut file)?,
    };
    Ok(file)
}

/// Whether the file was accepted.
fn show(path: Option<&str>) -> io::Result<bool> {
    let file = contents(path)?;
    let mut out = io::stdout();
    out.write_all(p12::listing(&file).as_bytes())?;
    let accepted = p12::read(&file).is_ok();
    if accepted {
        out.write_all(p12::pair_lines(&file).as_bytes())?;
    }
    Ok(accepted)
}

fn main() -> ExitCode {
    let arguments: Vec<String> = std::env::args().skip(1).collect();
    if arguments.len() > 1 {
        eprintln!("usage: p12-list [FILE]");
        return ExitCode::from(2);
    }
    match show(arguments.first().map(String::as_str)) {
        Ok(accepted) => ExitCode::from(if accepted { 0 } else { 1 }),
        Err(error) => {
            eprintln!("p12-list: {error}");
            ExitCode::from(2)
        }
    }
}
