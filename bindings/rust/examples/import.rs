//! Masks from an importer, each with its stated zero count: `cargo run --example import`.
//!
//! A record whose count is false is refused with 3 and sent back to its source; its flags are not used.

use poruwhina::{Bitmap, Permission, Refusal, may_reassign};

/// The record of an operator in an importer's file.
struct Record {
    operator: &'static str,
    bytes: &'static [u8],
    flags: usize,
    zeros: usize,
}

fn main() {
    let records = [
        Record { operator: "north pit", bytes: &[0x2D], flags: 6, zeros: 2 },
        // a truck was permitted after the zeros were counted
        Record { operator: "south pit", bytes: &[0x2F], flags: 6, zeros: 2 },
    ];
    let truck = 1;
    for Record { operator, bytes, flags, zeros } in records {
        match Bitmap::try_from_counted_span(bytes, 0, flags, zeros) {
            Ok(permission) => println!("{operator}: truck {truck} {}", asked(&permission, truck)),
            Err(refusal) => println!("{operator}: {refusal}"),
        }
    }
}

fn asked(permission: &Bitmap, truck: usize) -> &'static str {
    match may_reassign(Permission::Mask(permission), None, truck) {
        Ok(true) => "may be reassigned",
        Ok(false) => "may not be reassigned",
        Err(Refusal::OutsideMask) => "is not on the list",
        Err(_) => "cannot be told",
    }
}
