//! The memory that the library uses: its stack, and that it has nothing else.

use crate::rows::Row;
use compare::stack::depth;
use std::hint::black_box;
use std::path::{Path, PathBuf};
use std::process::Command;

/// The archive of the library.
const ARCHIVE: &str = "libhanraquin.a";

/// What the archive may ask for: functions that copy, fill and compare memory.
const ALLOWED: [&str; 5] = ["memcpy", "memmove", "memset", "memcmp", "bcmp"];

/// Prints the stack that each call uses.
pub fn stack(rows: &mut [Row]) {
    println!(
        "Stack in bytes, with all that a call calls and the little that passing its arguments \
        takes,\nmeasured by running it on a painted stack:"
    );
    for row in rows {
        let work = &mut row.work;
        let library = depth(&mut || _ = black_box(work.library()));
        let plain = depth(&mut || _ = black_box(work.plain()));
        println!("{:<40}library {library:>6}   plain {plain:>6}", row.name);
    }
}

/// Prints what the archive refers to; false if that is more than it may.
pub fn archive() -> bool {
    let path = folder().join(ARCHIVE);
    let output = match Command::new("nm").arg(&path).output() {
        Ok(output) if output.status.success() => output,
        _ => {
            println!("What the archive refers to was not looked at: nm is not there, or failed.");
            return true;
        }
    };
    let text = String::from_utf8_lossy(&output.stdout);
    let symbols = |kind: &str| -> Vec<&str> {
        let lines = text.lines().filter_map(|line| line.split_once(kind));
        lines.map(|(_, name)| name).collect()
    };
    // An object may refer to what another one of the archive has.
    let (mut names, own) = (symbols(" U "), symbols(" T "));
    names.retain(|name| !own.contains(name));
    names.sort_unstable();
    names.dedup();
    let right = names.iter().all(|name| ALLOWED.contains(name));
    let names = names.join(", ");
    if right {
        println!("The archive refers to no allocator and to no other function but: {names}");
    } else {
        println!("WRONG: the archive refers to more than it may: {names}");
    }
    right
}

/// Where the archive is, as the crate that links it finds it.
fn folder() -> PathBuf {
    match std::env::var_os("HANRAQUIN_LIB_DIR") {
        Some(folder) => folder.into(),
        None => Path::new(env!("CARGO_MANIFEST_DIR")).join("../../target/staticlib"),
    }
}
