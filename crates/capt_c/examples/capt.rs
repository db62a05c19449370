//! capt from Rust: a safe reader over the exports.
use std::marker::PhantomData;
use std::os::raw::c_void;

#[repr(C)]
#[derive(Default, Clone, Copy)]
struct Place { offset: u64, file: u32, rule: u32 }

#[repr(C)]
struct RawPacket {
    frame: *const u8, offset: u64, instance: u64, seconds: i64, numerator: u64, denominator: u64, resolution: u64,
    time_offset: i64, carry: u32, captured: u32, original: u32, snaplen: u32, link: u32,
}

#[repr(C)]
struct RawReader { at: *mut c_void, is_open: bool }

extern "C" {
    fn capt_open(reader: &mut RawReader, at: *const u8, len: usize, flags: u32) -> u32;
    fn capt_next(reader: &mut RawReader, packet: *mut RawPacket, place: &mut Place) -> u32;
    fn capt_close(reader: &mut RawReader);
}

pub struct Packet<'a> { pub seconds: i64, pub numerator: u64, pub denominator: u64, pub offset: u64, pub link: u32, pub original: u32, pub frame: &'a [u8] }

#[derive(Debug)]
pub struct Refused { pub offset: u64, pub rule: u32 }

/// The borrow of the bytes keeps them until the reader is dropped, which is what `capt_open` asks; a frame borrows the reader, so it ends
/// before the next call. A raw pointer makes it neither Send nor Sync.
pub struct Reader<'b> { raw: Box<RawReader>, bytes: PhantomData<&'b [u8]> }

impl<'b> Reader<'b> {
    pub fn new(bytes: &'b [u8], allow_cut: bool) -> Option<Reader<'b>> {
        let mut raw = Box::new(RawReader { at: std::ptr::null_mut(), is_open: false });
        match unsafe { capt_open(&mut raw, bytes.as_ptr(), bytes.len(), allow_cut as u32) } { 0 => Some(Reader { raw, bytes: PhantomData }), _ => None }
    }
    pub fn next(&mut self) -> Result<Option<Packet<'_>>, Refused> {
        let mut p: RawPacket = unsafe { std::mem::zeroed() };
        let mut place = Place::default();
        match unsafe { capt_next(&mut self.raw, &mut p, &mut place) } {
            0 => Ok(None),
            1 => Ok(Some(Packet { seconds: p.seconds, numerator: p.numerator, denominator: p.denominator, offset: p.offset, link: p.link, original: p.original,
                frame: unsafe { std::slice::from_raw_parts(p.frame, p.captured as usize) } })),
            _ => Err(Refused { offset: place.offset, rule: place.rule }),
        }
    }
}

impl Drop for Reader<'_> { fn drop(&mut self) { unsafe { capt_close(&mut self.raw) } } }

fn main() {
    for name in std::env::args().skip(1) {
        let bytes = std::fs::read(&name).unwrap();
        let mut reader = Reader::new(&bytes, false).unwrap();
        let (mut n, mut sum) = (0u64, 0u64);
        loop {
            match reader.next() {
                Ok(Some(p)) => { n += 1; sum += p.frame.iter().map(|b| *b as u64).sum::<u64>(); }
                Ok(None) => { println!("{name}: {n} packets, sum {sum}"); break }
                Err(r) => { println!("{name}: {n} packets, refused offset {} rule {}", r.offset, r.rule); break }
            }
        }
    }
}
