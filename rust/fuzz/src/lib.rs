//! The tests of a fuzzer on the crate: any octets as a recording, as levels, as lines of units and as a script. The promises of the documentation are
//! asserted, and the crate's own assertions check the conditions of calls.

use p25::bits::BitBuf;
use p25::io::{Failed, Sink, SteadySource};
use p25::line::Line;
use p25::shim::alloc::Global;
use p25::status::Status;
use p25::stream::{Item, Scanner};
use p25::text::{read_line, unit_text};
use p25::tool::{Outcome, Words, run};
use p25::units::{Frame, image};

// A sink that keeps all.
#[derive(Default)]
struct Kept(Vec<u8>);

impl Sink for Kept {
    fn write(&mut self, piece: &[u8]) -> Result<(), Failed> {
        self.0.extend_from_slice(piece);
        Ok(())
    }
}

// Makes a call of the program, in reads of at most `reads` octets, and returns its output and its outcome.
fn called(words: &[&[u8]], octets: &[u8], piece: usize) -> (Vec<u8>, Outcome) {
    let mut list = Words::new();
    for word in words {
        list.add(word);
    }
    let mut sink = Kept::default();
    let outcome = run(Global, &list, &mut SteadySource::new(octets, piece), &mut sink);
    (sink.0, outcome)
}

// Checks that items lie end to end and cover every bit, and that each whole unit builds again: from its text, and from its bits.
fn try_items(octets: &[u8]) {
    let (mut scanner, mut end) = (Scanner::new(), 0);
    let mut take = |scanner: &mut Scanner| {
        while let Some(item) = scanner.next_item() {
            assert_eq!(item.place(), end, "items lie end to end");
            end += item.covered();
            if let Item::Whole { frame, .. } = &item {
                try_unit(frame);
            }
        }
    };
    for octet in octets {
        scanner.push(*octet);
        take(&mut scanner);
    }
    scanner.finish();
    take(&mut scanner);
    assert_eq!(end, 8 * octets.len() as u64, "items cover every bit");
}

fn try_unit(frame: &Frame) {
    let mut line = Line::new();
    unit_text(&frame.unit, &mut line);
    let again = read_line(line.octets());
    assert!(again == Ok(frame.unit.clone()), "the text of a unit builds the unit");
    let mut bits = BitBuf::new();
    image(&Frame::filled(frame.unit.clone(), Status::new(1).unwrap_or_default()), &mut bits);
    let mut scanner = Scanner::new();
    for at in (0..bits.len()).step_by(8) {
        let width = 8.min(bits.len() - at);
        scanner.push((bits.field(at, width as u32) << (8 - width)) as u8);
        if scanner.next_item().is_some_and(|it| matches!(&it, Item::Whole { frame: sent, fixes, .. } if sent.unit == frame.unit && *fixes == 0)) {
            return;
        }
    }
    scanner.finish();
    let found = scanner.next_item();
    assert!(matches!(&found, Some(Item::Whole { frame: sent, .. }) if sent.unit == frame.unit), "the bits of a unit decode to the unit");
}

// Returns the positions of the items of a recording, how many bits they cover, and whether they are whole units.
fn extents(octets: &[u8]) -> Vec<(u64, u64, bool)> {
    let (mut scanner, mut found) = (Scanner::new(), Vec::new());
    for octet in octets.iter().map(Some).chain([None]) {
        match octet {
            Some(octet) => scanner.push(*octet),
            None => scanner.finish(),
        }
        while let Some(item) = scanner.next_item() {
            found.push((item.place(), item.covered(), matches!(item, Item::Whole { .. })));
        }
    }
    found
}

// Checks that the output does not depend on the reads and has the length that the command promises. A second call changes nothing: always for `follow`, and
// for the others if the scan finds the same extents again. The bits that they write of a unit can make the header of a packet before it decode.
fn try_recording(octets: &[u8], piece: usize) {
    let before = extents(octets);
    for words in [&[b"repair".as_slice()] as &[&[u8]], &[b"follow"], &[b"relay", b"2a1", b"2"]] {
        let (once, end) = called(words, octets, piece);
        assert!(end == Outcome::Done && once.len() == octets.len(), "the length is kept");
        assert!(called(words, octets, 4096).0 == once, "reads do not matter");
        if words[0] == b"follow" || extents(&once) == before {
            assert!(called(words, &once, 4096).0 == once, "a second call changes nothing");
        }
    }
    for words in [b"show".as_slice(), b"check", b"calls"] {
        let (once, _) = called(&[words], octets, piece);
        assert!(called(&[words], octets, 4096).0 == once, "reads do not matter");
    }
}

fn try_levels(levels: &[u8], piece: usize) {
    let (bits, end) = called(&[b"soft"], levels, piece);
    assert!(end == Outcome::Done && bits.len() == levels.len().div_ceil(4), "four levels are an octet");
}

fn try_lines(lines: &[u8], piece: usize) {
    let (built, end) = called(&[b"build", b"1"], lines, piece);
    if end == Outcome::Done {
        let (shown, _) = called(&[b"show"], &built, 4096);
        let units = lines.split(|it| *it == b'\n').filter(|it| !it.is_empty()).count();
        let found = shown.split(|it| *it == b'\n').filter(|it| it.starts_with(b"unit ")).count();
        assert!(found >= units.min(1), "what is built is found");
    }
    for words in [b"stations".as_slice(), b"fragments", b"duplex"] {
        called(&[words], lines, piece);
    }
}

/// Tries octets: the first chooses the kind of input, the second how many are read at a time.
fn try_octets(data: &[u8]) {
    let [what, piece, octets @ ..] = data else {
        return;
    };
    let piece = usize::from(*piece) + 1;
    match what % 4 {
        0 => try_recording(octets, piece),
        1 => try_items(octets),
        2 => try_levels(octets, piece),
        _ => try_lines(octets, piece),
    }
}

/// Tries the octets of libFuzzer, which calls this.
///
/// # Safety
///
/// `size` octets are readable at `data`.
#[unsafe(no_mangle)]
#[allow(non_snake_case)]
pub unsafe extern "C" fn LLVMFuzzerTestOneInput(data: *const u8, size: usize) -> i32 {
    if size > 0 {
        // SAFETY: the caller promises that this many octets are readable.
        try_octets(unsafe { std::slice::from_raw_parts(data, size) });
    }
    0
}
