//! Prints what `p25 show` prints of standard input. It declares the call of the library by hand and needs no crate:
//!
//!     rustc --edition 2021 -O -L out -l static=p25 -o show bindings/languages/show.rs
//!
//! A program that uses cargo has the same without `unsafe` in the crate of docs/RUST.md.

use std::io::{self, Read, Write};

const ITEM: i32 = 1; // P25_ITEM of p25.h
const TEXT_ROOM: usize = 8192; // P25_TEXT_ROOM

/// An item of a recording: the struct `p25_item` of p25.h.
#[repr(C)]
#[derive(Default)]
struct Item {
    place: u64,
    bits: u32,
    fixes: u32,
    text_length: u32,
    nac: u16,
    duid: u8,
    kind: u8,
}

extern "C" {
    fn p25_next_item(
        octets: *const u8,
        n: usize,
        begin: u64,
        from: u64,
        ended: bool,
        item: *mut Item,
        text: *mut u8,
        room: usize,
    ) -> i32;
}

/// Returns the item that begins at a bit of a recording, and writes its text to `text`; `None` if the recording ends there.
fn next_item(octets: &[u8], from: u64, text: &mut [u8; TEXT_ROOM]) -> Option<Item> {
    let mut item = Item::default();
    // SAFETY: each pointer is that of a reference and has the length beside it; what is written overlaps nothing.
    let answer = unsafe {
        p25_next_item(
            octets.as_ptr(),
            octets.len(),
            0,
            from,
            true,
            &mut item,
            text.as_mut_ptr(),
            text.len(),
        )
    };
    (answer == ITEM).then_some(item)
}

fn main() -> io::Result<()> {
    let mut octets = Vec::new();
    io::stdin().read_to_end(&mut octets)?;
    let mut output = io::BufWriter::new(io::stdout().lock());
    let mut text = [0; TEXT_ROOM];
    let mut from = 0;
    while let Some(item) = next_item(&octets, from, &mut text) {
        output.write_all(&text[..item.text_length as usize])?;
        output.write_all(b"\n")?;
        from = item.place + u64::from(item.bits);
    }
    output.flush()
}
