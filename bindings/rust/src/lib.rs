//! Packet captures (pcap and pcapng), read and reported by capt's proved library.
//!
//! ```no_run
//! let bytes = std::fs::read("monday.pcap").unwrap();
//! let mut capture = capt::Capture::open(&bytes, false).unwrap();
//! while let Some(packet) = capture.next().unwrap() {
//!     println!("{} {} {}", packet.seconds, packet.link, packet.data.len());
//! }
//! println!("{}", capt::report(&[&bytes], false).unwrap());
//! ```
use std::ffi::c_void;
use std::fmt;
use std::io;
use std::marker::PhantomData;
use std::net::IpAddr;
use std::sync::Arc;

const DONE: u32 = 0;
const PACKET: u32 = 1;
const REFUSED: u32 = 2;
const MEMORY: u32 = 5;
const MORE: u32 = 7;
const PIECE: u32 = 8;

const ALLOW_CUT: u32 = 1;
const BIG: u32 = 2;
const TO_PCAP: u32 = 4;
const IPV6: u32 = 8;

#[repr(C)]
#[derive(Default)]
struct RawPlace {
    offset: u64,
    file: u32,
    rule: u32,
}

#[repr(C)]
struct RawPacket {
    frame: *const u8,
    offset: u64,
    instance: u64,
    seconds: i64,
    numerator: u64,
    denominator: u64,
    resolution: u64,
    time_offset: i64,
    carry: u32,
    captured: u32,
    original: u32,
    snaplen: u32,
    link: u32,
}

#[repr(C)]
#[derive(Default)]
struct RawEnding {
    skipped: u64,
    is_pcapng: bool,
    was_cut: bool,
}

#[repr(C)]
#[derive(Default)]
struct RawTime {
    seconds: i64,
    carry: i64,
    numerator: u64,
    denominator: u64,
}

#[repr(C)]
#[derive(Default)]
struct RawTraffic {
    packets: u64,
    bytes: u64,
    carry: u64,
}

#[repr(C)]
#[derive(Default)]
struct RawEndpoint {
    address: [u8; 16],
    port: u16,
    version: u8,
    has_port: bool,
}

#[repr(C)]
#[derive(Default)]
struct RawTalk {
    a: RawEndpoint,
    b: RawEndpoint,
    protocol: u8,
    forward: RawTraffic,
    backward: RawTraffic,
    first: RawTime,
    last: RawTime,
}

#[repr(C)]
#[derive(Default)]
struct RawFile {
    all: RawTraffic,
    truncated: u64,
    skipped: u64,
    first: RawTime,
    last: RawTime,
    format: u32,
    was_cut: bool,
}

#[repr(C)]
#[derive(Default)]
struct RawTotals {
    all: RawTraffic,
    truncated: u64,
    other_link: u64,
    not_ip: u64,
    too_short: u64,
    cut: u64,
    bad: u64,
    unjoined: u64,
    counted: u64,
    joined: u64,
    given_up: u64,
    talks: u64,
    files: u32,
}

#[repr(C)]
struct RawReader {
    at: *mut c_void,
    is_open: bool,
}

const CLOSED: RawReader = RawReader { at: std::ptr::null_mut(), is_open: false };

#[repr(C)]
struct RawText {
    at: *const u8,
    len: usize,
    handle: RawReader,
}

#[repr(C)]
struct RawBytes {
    at: *const u8,
    len: usize,
}

#[repr(C)]
#[derive(Default)]
struct RawOptions {
    flags: u32,
    data: u32,
    top: u32,
    times: u32,
    unit: u32,
}

extern "C" {
    fn capt_open(reader: *mut RawReader, at: *const u8, len: usize, flags: u32) -> u32;
    fn capt_open_fed(reader: *mut RawReader, flags: u32) -> u32;
    fn capt_feed(reader: *mut RawReader, at: *const u8, len: usize) -> u32;
    fn capt_feed_end(reader: *mut RawReader) -> u32;
    fn capt_next(reader: *mut RawReader, packet: *mut RawPacket, place: *mut RawPlace) -> u32;
    fn capt_end(reader: *mut RawReader, ending: *mut RawEnding) -> u32;
    fn capt_close(reader: *mut RawReader);
    fn capt_table_open(table: *mut RawReader, files: *const RawBytes, count: usize, flags: u32) -> u32;
    fn capt_table_step(table: *mut RawReader, place: *mut RawPlace) -> u32;
    fn capt_table_write(table: *mut RawReader, text: *mut RawText, place: *mut RawPlace) -> u32;
    fn capt_table_talk(table: *mut RawReader, place: usize, talk: *mut RawTalk) -> u32;
    fn capt_table_file(table: *mut RawReader, number: u32, file: *mut RawFile) -> u32;
    fn capt_table_totals(table: *mut RawReader, totals: *mut RawTotals) -> u32;
    fn capt_job_open(
        job: *mut RawReader,
        command: u32,
        files: *const RawBytes,
        count: usize,
        options: *const RawOptions,
    ) -> u32;
    fn capt_job_read(job: *mut RawReader, buffer: *mut u8, room: usize, len: *mut usize, place: *mut RawPlace) -> u32;
    fn capt_writer_open(writer: *mut RawReader, flags: u32) -> u32;
    fn capt_writer_put(
        writer: *mut RawReader,
        packet: *const RawPacket,
        frame: *const u8,
        len: usize,
        place: *mut RawPlace,
    ) -> u32;
    fn capt_writer_take(writer: *mut RawReader, text: *mut RawText) -> u32;
    fn capt_text_close(text: *mut RawText);
    fn capt_rule_name(rule: u32, buffer: *mut u8, room: usize) -> usize;
    fn capt_version(buffer: *mut u8, room: usize) -> usize;
    fn capt_version_number() -> u32;
}

/// Where and why a capture is refused.
#[derive(Clone, Copy, Debug, PartialEq, Eq)]
#[non_exhaustive]
pub struct Refusal {
    /// The number of the file, from 1.
    pub file: u32,
    /// Where the header, the record or the block begins, in bytes.
    pub offset: u64,
    /// The rule that is broken, from 1 to 21.
    pub rule: u32,
}

/// What a call can't do.
#[derive(Clone, PartialEq, Eq)]
#[non_exhaustive]
pub enum Error {
    /// A capture breaks a rule. The bytes are what was written before it; `Debug` shows how many they are.
    Refused(Refusal, Vec<u8>),
    /// No memory was found.
    Memory,
    /// There are no files, or more than 32.
    Files,
    /// Bytes were fed after the end.
    Ended,
    /// No packet has these fields.
    NoPacket,
}

fn text_of(call: impl Fn(*mut u8, usize) -> usize) -> String {
    let mut buffer = [0u8; 64];
    let len = call(buffer.as_mut_ptr(), buffer.len());
    String::from_utf8_lossy(&buffer[..len.min(64)]).into_owned()
}

/// The name of a rule, as "block-trailer"; empty if there is no such rule.
pub fn rule_name(rule: u32) -> String {
    // SAFETY: the buffer has the room that is told
    text_of(|at, room| unsafe { capt_rule_name(rule, at, room) })
}

/// The version of the library.
pub fn version() -> String {
    // SAFETY: the buffer has the room that is told
    text_of(|at, room| unsafe { capt_version(at, room) })
}

/// The version of the library as a number: 10,000 times its first part, 100 times its second, and its third.
pub fn version_number() -> u32 {
    // SAFETY: it takes nothing
    unsafe { capt_version_number() }
}

impl fmt::Display for Error {
    fn fmt(&self, out: &mut fmt::Formatter<'_>) -> fmt::Result {
        match self {
            Error::Refused(Refusal { file, offset, rule }, _) => {
                write!(out, "refused: file {file} offset {offset} rule {rule} {}", rule_name(*rule))
            }
            Error::Memory => write!(out, "fault: memory"),
            Error::Files => write!(out, "fault: files"),
            Error::Ended => write!(out, "fault: fed after the end"),
            Error::NoPacket => write!(out, "fault: no packet has these fields"),
        }
    }
}

impl fmt::Debug for Error {
    fn fmt(&self, out: &mut fmt::Formatter<'_>) -> fmt::Result {
        match self {
            Error::Refused(refusal, text) => {
                out.debug_tuple("Refused").field(refusal).field(&format_args!("{} bytes", text.len())).finish()
            }
            Error::Memory => out.write_str("Memory"),
            Error::Files => out.write_str("Files"),
            Error::Ended => out.write_str("Ended"),
            Error::NoPacket => out.write_str("NoPacket"),
        }
    }
}

impl std::error::Error for Error {}

/// Why a [`Reader`] gives no packet.
#[derive(Debug)]
#[non_exhaustive]
pub enum ReadError {
    /// A read failed, as the source told. The call may be made again, and reads on.
    Read(io::Error),
    /// The capture is refused, or no memory was found.
    Capture(Error),
}

impl fmt::Display for ReadError {
    fn fmt(&self, out: &mut fmt::Formatter<'_>) -> fmt::Result {
        match self {
            ReadError::Read(error) => write!(out, "fault: read: {error}"),
            ReadError::Capture(error) => error.fmt(out),
        }
    }
}

impl std::error::Error for ReadError {
    fn source(&self) -> Option<&(dyn std::error::Error + 'static)> {
        match self {
            ReadError::Read(error) => Some(error),
            ReadError::Capture(error) => Some(error),
        }
    }
}

impl From<Error> for ReadError {
    fn from(error: Error) -> ReadError {
        ReadError::Capture(error)
    }
}

impl From<io::Error> for ReadError {
    fn from(error: io::Error) -> ReadError {
        ReadError::Read(error)
    }
}

fn error_of(status: u32, place: RawPlace, text: Vec<u8>) -> Error {
    match status {
        REFUSED => Error::Refused(Refusal { file: place.file, offset: place.offset, rule: place.rule }, text),
        MEMORY => Error::Memory,
        _ => Error::Files,
    }
}

/// A packet. Its time is exactly `seconds + numerator/denominator` since 1970.
#[derive(Clone, Copy, Debug, PartialEq, Eq)]
#[non_exhaustive]
pub struct Packet<'a> {
    /// Where its record or block begins, in bytes.
    pub offset: u64,
    /// How many interface blocks of the file stand before its own interface's; 0 in a pcap file.
    pub instance: u64,
    /// Whole seconds, rounded down; 0 if it has no time.
    pub seconds: i128,
    /// The fraction of a second, below the denominator.
    pub numerator: u64,
    /// 0 if the packet has no time.
    pub denominator: u64,
    /// How many units of time its interface counts in a second, at least 1.
    pub resolution: u64,
    /// The second from which its interface counts, which `seconds` includes; 0 in a pcap file.
    pub time_offset: i64,
    /// How many bytes it had.
    pub original: u32,
    /// The most bytes that its interface captures; 0 for no limit.
    pub snaplen: u32,
    /// The link type of its interface, of the LINKTYPE registry.
    pub link: u32,
    /// Its captured bytes.
    pub data: &'a [u8],
}

/// How a capture ended.
#[derive(Clone, Copy, Debug, PartialEq, Eq)]
#[non_exhaustive]
pub struct Ending {
    /// How many blocks are neither sections, interfaces nor packets; 0 in a pcap file.
    pub skipped: u64,
    /// Whether it is a pcapng file, and no pcap file.
    pub is_pcapng: bool,
    /// Whether a cut rest was dropped.
    pub was_cut: bool,
}

/// What comes next of a capture that is fed.
#[derive(Clone, Copy, Debug, PartialEq, Eq)]
pub enum Next<'a> {
    /// A packet.
    Packet(Packet<'a>),
    /// More bytes are wanted to tell.
    More,
    /// The capture ends.
    End,
}

// What is next, before its bytes are borrowed.
enum Step {
    Packet(RawPacket),
    More,
    End,
}

fn step(reader: &mut RawReader) -> Result<Step, Error> {
    let mut raw = std::mem::MaybeUninit::<RawPacket>::uninit();
    let mut place = RawPlace::default();
    // SAFETY: after PACKET the packet is set
    unsafe {
        match capt_next(reader, raw.as_mut_ptr(), &mut place) {
            PACKET => Ok(Step::Packet(raw.assume_init())),
            MORE => Ok(Step::More),
            DONE => Ok(Step::End),
            status => Err(error_of(status, place, Vec::new())),
        }
    }
}

// How a capture ended, if it has.
fn ending_of(reader: &mut RawReader) -> Option<Ending> {
    let mut raw = RawEnding::default();
    // SAFETY: the reader is open
    match unsafe { capt_end(reader, &mut raw) } {
        DONE => Some(Ending { skipped: raw.skipped, is_pcapng: raw.is_pcapng, was_cut: raw.was_cut }),
        _ => None,
    }
}

// The packet that the last call with the reader gave.
fn packet_of(_: &mut RawReader, raw: RawPacket) -> Packet<'_> {
    Packet {
        offset: raw.offset,
        instance: raw.instance,
        seconds: i128::from(raw.seconds) + (i128::from(raw.carry) << 64),
        numerator: raw.numerator,
        denominator: raw.denominator,
        resolution: raw.resolution,
        time_offset: raw.time_offset,
        original: raw.original,
        snaplen: raw.snaplen,
        link: raw.link,
        // SAFETY: the frame stays until the next call, which wants the reader
        data: unsafe { std::slice::from_raw_parts(raw.frame, raw.captured as usize) },
    }
}

/// The packets of a capture in memory, one by one.
pub struct Capture<'a> {
    reader: RawReader,
    // it isn't shared: unlike a box it may be moved while the reader has the address of what is in it
    owner: Arc<dyn AsRef<[u8]> + Send + Sync + 'a>,
    len: usize,
}

// SAFETY: what a reader holds is its own, and its bytes are only read
unsafe impl Send for Capture<'_> {}

impl<'a> Capture<'a> {
    /// Opens the capture of those bytes. With `allow_cut` a last record or block that is cut off is dropped.
    pub fn open(bytes: &'a [u8], allow_cut: bool) -> Result<Capture<'a>, Error> {
        Capture::from_owner(bytes, allow_cut)
    }

    /// The same of bytes that the capture owns, so that it can be kept and passed on.
    pub fn from_vec(bytes: Vec<u8>, allow_cut: bool) -> Result<Capture<'static>, Error> {
        Capture::from_owner(bytes, allow_cut)
    }

    /// The same of whatever has the bytes, as an `Arc<[u8]>` or a mapped file, which the capture owns. It is asked for
    /// them once.
    pub fn from_owner(owner: impl AsRef<[u8]> + Send + Sync + 'a, allow_cut: bool) -> Result<Capture<'a>, Error> {
        let mut capture = Capture { reader: CLOSED, owner: Arc::new(owner), len: 0 };
        let bytes = (*capture.owner).as_ref();
        capture.len = bytes.len();
        // SAFETY: the bytes stay as and where they are until the reader is closed, since until then their owner is neither
        // moved, changed nor dropped; the reader begins as zero
        match unsafe { capt_open(&mut capture.reader, bytes.as_ptr(), bytes.len(), cut(allow_cut)) } {
            DONE => Ok(capture),
            _ => Err(Error::Memory),
        }
    }

    /// The next packet, or none at the end. The end and a refusal come again.
    #[allow(clippy::should_implement_trait)]
    pub fn next(&mut self) -> Result<Option<Packet<'_>>, Error> {
        match step(&mut self.reader)? {
            Step::Packet(raw) => Ok(Some(packet_of(&mut self.reader, raw))),
            _ => Ok(None),
        }
    }

    /// How it ended, once `next` has given none.
    pub fn ending(&mut self) -> Option<Ending> {
        ending_of(&mut self.reader)
    }
}

impl fmt::Debug for Capture<'_> {
    fn fmt(&self, out: &mut fmt::Formatter<'_>) -> fmt::Result {
        out.debug_struct("Capture").field("bytes", &self.len).finish_non_exhaustive()
    }
}

impl Drop for Capture<'_> {
    fn drop(&mut self) {
        // SAFETY: a reader may be closed at any time
        unsafe { capt_close(&mut self.reader) }
    }
}

/// The packets of a capture whose bytes are fed piece by piece, cut anywhere.
pub struct Fed {
    reader: RawReader,
}

// SAFETY: what a reader holds is its own
unsafe impl Send for Fed {}

impl Fed {
    /// A capture of which nothing was fed yet. With `allow_cut` a last record or block that is cut off is dropped.
    pub fn open(allow_cut: bool) -> Result<Fed, Error> {
        let mut fed = Fed { reader: CLOSED };
        // SAFETY: the reader begins as zero
        match unsafe { capt_open_fed(&mut fed.reader, cut(allow_cut)) } {
            DONE => Ok(fed),
            _ => Err(Error::Memory),
        }
    }

    /// Feeds the next bytes, which are copied; after `end` none can be fed.
    pub fn feed(&mut self, piece: &[u8]) -> Result<(), Error> {
        // SAFETY: the bytes are there while the call runs
        match unsafe { capt_feed(&mut self.reader, piece.as_ptr(), piece.len()) } {
            DONE => Ok(()),
            MEMORY => Err(Error::Memory),
            _ => Err(Error::Ended),
        }
    }

    /// No more bytes come.
    pub fn end(&mut self) {
        // SAFETY: the reader is open
        unsafe { capt_feed_end(&mut self.reader) };
    }

    /// The next packet, as far as the bytes tell that were fed. The end and a refusal come again; a cut end is refused
    /// after `end` alone.
    #[allow(clippy::should_implement_trait)]
    pub fn next(&mut self) -> Result<Next<'_>, Error> {
        Ok(match step(&mut self.reader)? {
            Step::Packet(raw) => Next::Packet(packet_of(&mut self.reader, raw)),
            Step::More => Next::More,
            Step::End => Next::End,
        })
    }

    /// How it ended, once `next` has given `End`.
    pub fn ending(&mut self) -> Option<Ending> {
        ending_of(&mut self.reader)
    }
}

impl fmt::Debug for Fed {
    fn fmt(&self, out: &mut fmt::Formatter<'_>) -> fmt::Result {
        out.debug_struct("Fed").finish_non_exhaustive()
    }
}

impl Drop for Fed {
    fn drop(&mut self) {
        // SAFETY: a reader may be closed at any time
        unsafe { capt_close(&mut self.reader) }
    }
}

/// The packets of a capture that is read from a source, as from a file, a pipe or a socket, in bounded memory.
pub struct Reader<R> {
    fed: Fed,
    source: R,
    piece: Vec<u8>,
    // how many bytes of the piece were read and aren't fed yet
    len: usize,
}

impl<R: io::Read> Reader<R> {
    /// The capture that the source gives from where it is. With `allow_cut` a last record or block that is cut off is
    /// dropped.
    pub fn open(source: R, allow_cut: bool) -> Result<Reader<R>, Error> {
        Ok(Reader { fed: Fed::open(allow_cut)?, source, piece: vec![0; 65536], len: 0 })
    }

    /// The next packet, or none at the end. The end and a refusal come again. A read that was interrupted is made again;
    /// after another that failed the call may be made again.
    #[allow(clippy::should_implement_trait)]
    pub fn next(&mut self) -> Result<Option<Packet<'_>>, ReadError> {
        loop {
            match step(&mut self.fed.reader)? {
                Step::Packet(raw) => return Ok(Some(packet_of(&mut self.fed.reader, raw))),
                Step::End => return Ok(None),
                Step::More => self.read()?,
            }
        }
    }

    fn read(&mut self) -> Result<(), ReadError> {
        while self.len == 0 {
            match self.source.read(&mut self.piece) {
                Ok(0) => {
                    self.fed.end();
                    return Ok(());
                }
                Ok(len) => self.len = len,
                Err(error) if error.kind() == io::ErrorKind::Interrupted => {}
                Err(error) => return Err(error.into()),
            }
        }
        self.fed.feed(&self.piece[..self.len])?;
        self.len = 0;
        Ok(())
    }

    /// How it ended, once `next` has given none.
    pub fn ending(&mut self) -> Option<Ending> {
        self.fed.ending()
    }

    /// The source, from which more may have been read than the packets that were given.
    pub fn into_inner(self) -> R {
        self.source
    }
}

impl<R> fmt::Debug for Reader<R> {
    fn fmt(&self, out: &mut fmt::Formatter<'_>) -> fmt::Result {
        out.debug_struct("Reader").finish_non_exhaustive()
    }
}

// The flag for it, or none.
fn cut(allow_cut: bool) -> u32 {
    if allow_cut {
        ALLOW_CUT
    } else {
        0
    }
}

fn made(call: impl FnOnce(*mut RawText, *mut RawPlace) -> u32) -> Result<Vec<u8>, Error> {
    let mut text = RawText { at: std::ptr::null(), len: 0, handle: CLOSED };
    let mut place = RawPlace::default();
    let status = call(&mut text, &mut place);
    // SAFETY: a text that is there has its length of bytes until it is closed
    let bytes = unsafe {
        let bytes = if text.len == 0 { Vec::new() } else { std::slice::from_raw_parts(text.at, text.len).to_vec() };
        capt_text_close(&mut text);
        bytes
    };
    match status {
        DONE => Ok(bytes),
        _ => Err(error_of(status, place, bytes)),
    }
}

// The commands of enum capt_command.
const LIST: u32 = 1;
const BLOCKS: u32 = 2;
const INFO: u32 = 3;
const REPORT: u32 = 4;
const CONVERT: u32 = 5;
const MERGE: u32 = 6;
const JOIN: u32 = 7;

// A job is closed when it is dropped.
struct Job(RawReader);

impl Drop for Job {
    fn drop(&mut self) {
        // SAFETY: a job may be closed at any time
        unsafe { capt_close(&mut self.0) }
    }
}

fn files_of(files: &[&[u8]]) -> Vec<RawBytes> {
    files.iter().map(|file| RawBytes { at: file.as_ptr(), len: file.len() }).collect()
}

// The text of a command.
fn job_text(command: u32, files: &[&[u8]], flags: u32) -> Result<Vec<u8>, Error> {
    let raw = files_of(files);
    let options = RawOptions { flags, ..RawOptions::default() };
    let mut job = Job(CLOSED);
    let mut place = RawPlace::default();
    // SAFETY: the bytes are there until the job is dropped, at the end of this function
    let status = unsafe { capt_job_open(&mut job.0, command, raw.as_ptr(), raw.len(), &options) };
    if status != DONE {
        return Err(error_of(status, place, Vec::new()));
    }
    let (mut text, mut buffer, mut count) = (Vec::new(), vec![0; 1 << 16], 0);
    loop {
        // SAFETY: the buffer has room for so many bytes
        let status =
            unsafe { capt_job_read(&mut job.0, buffer.as_mut_ptr(), buffer.len(), &mut count, &mut place) };
        match status {
            PIECE => text.extend_from_slice(&buffer[..count]),
            DONE => return Ok(text),
            _ => return Err(error_of(status, place, text)),
        }
    }
}

fn lines(bytes: Vec<u8>) -> String {
    String::from_utf8_lossy(&bytes).into_owned()
}

/// What `capt list` prints of a capture.
pub fn list(file: &[u8], allow_cut: bool) -> Result<String, Error> {
    job_text(LIST, &[file], cut(allow_cut)).map(lines)
}

/// What `capt blocks` prints of a pcapng capture.
pub fn blocks(file: &[u8], allow_cut: bool) -> Result<String, Error> {
    job_text(BLOCKS, &[file], cut(allow_cut)).map(lines)
}

/// What `capt info` prints of 1 to 32 captures.
pub fn info(files: &[&[u8]], allow_cut: bool) -> Result<String, Error> {
    job_text(INFO, files, cut(allow_cut)).map(lines)
}

/// The report over 1 to 32 captures.
pub fn report(files: &[&[u8]], allow_cut: bool) -> Result<String, Error> {
    report_with(files, ReportOptions { allow_cut, ipv6: false })
}

/// What a report is asked for: `ReportOptions::new().ipv6(true)`.
#[derive(Clone, Copy, Debug, Default, PartialEq, Eq)]
pub struct ReportOptions {
    allow_cut: bool,
    ipv6: bool,
}

impl ReportOptions {
    /// A report of whole captures, which reads IPv4 packets.
    pub fn new() -> ReportOptions {
        ReportOptions::default()
    }

    /// Whether a last record or block that is cut off is dropped.
    pub fn allow_cut(self, allow_cut: bool) -> ReportOptions {
        ReportOptions { allow_cut, ..self }
    }

    /// Whether the report also has the conversations of IPv6 packets, and the count `not-ip` in place of `not-ipv4`.
    pub fn ipv6(self, ipv6: bool) -> ReportOptions {
        ReportOptions { ipv6, ..self }
    }

    fn flags(self) -> u32 {
        cut(self.allow_cut) | if self.ipv6 { IPV6 } else { 0 }
    }
}

/// The report over 1 to 32 captures that is asked for.
pub fn report_with(files: &[&[u8]], options: ReportOptions) -> Result<String, Error> {
    job_text(REPORT, files, options.flags()).map(lines)
}

/// An exact time since 1970: `seconds + numerator/denominator`.
#[derive(Clone, Copy, Debug, PartialEq, Eq)]
#[non_exhaustive]
pub struct Time {
    /// Whole seconds, rounded down.
    pub seconds: i128,
    /// The fraction of a second, below the denominator.
    pub numerator: u64,
    /// At least 1.
    pub denominator: u64,
}

impl RawTime {
    fn time(&self) -> Option<Time> {
        let seconds = i128::from(self.seconds) + (i128::from(self.carry) << 64);
        let (numerator, denominator) = (self.numerator, self.denominator);
        (denominator != 0).then_some(Time { seconds, numerator, denominator })
    }
}

/// Some packets, and the sum of their original lengths.
#[derive(Clone, Copy, Debug, PartialEq, Eq)]
#[non_exhaustive]
pub struct Traffic {
    /// How many there are.
    pub packets: u64,
    /// How many bytes they had.
    pub bytes: u128,
}

impl RawTraffic {
    fn traffic(&self) -> Traffic {
        Traffic { packets: self.packets, bytes: u128::from(self.bytes) + (u128::from(self.carry) << 64) }
    }
}

/// An end of a conversation.
#[derive(Clone, Copy, Debug, PartialEq, Eq, Hash)]
#[non_exhaustive]
pub struct Endpoint {
    /// Its address.
    pub address: IpAddr,
    /// Its port; none if the protocol has none.
    pub port: Option<u16>,
}

impl RawEndpoint {
    fn endpoint(&self) -> Endpoint {
        let [a, b, c, d, ..] = self.address;
        let address = if self.version == 4 { IpAddr::from([a, b, c, d]) } else { IpAddr::from(self.address) };
        Endpoint { address, port: self.has_port.then_some(self.port) }
    }
}

/// A conversation, as a line `talk` of a report has it.
#[derive(Clone, Copy, Debug, PartialEq, Eq)]
#[non_exhaustive]
pub struct Talk {
    /// The number of its protocol: 6 TCP, 17 UDP.
    pub protocol: u8,
    /// The lesser of its two ends.
    pub a: Endpoint,
    /// The other end.
    pub b: Endpoint,
    /// What went from `a` to `b`.
    pub forward: Traffic,
    /// What went from `b` to `a`.
    pub backward: Traffic,
    /// The least time of its packets.
    pub first: Option<Time>,
    /// The greatest time of its packets.
    pub last: Option<Time>,
}

/// What is counted of a file, as its line `file` has it.
#[derive(Clone, Copy, Debug, PartialEq, Eq)]
#[non_exhaustive]
pub struct FileCounts {
    /// Its format; none if no packet was taken of it so far.
    pub format: Option<Format>,
    /// Its packets.
    pub all: Traffic,
    /// How many of them had more bytes than were captured.
    pub truncated: u64,
    /// How many blocks are neither sections, interfaces nor packets; 0 in a pcap file.
    pub skipped: u64,
    /// The least time of its packets.
    pub first: Option<Time>,
    /// The greatest time of its packets.
    pub last: Option<Time>,
    /// Whether a cut rest was dropped.
    pub was_cut: bool,
}

/// What is counted of all packets, as the lines `total`, `frames`, `joined`, `talks` and `files` have it.
#[derive(Clone, Copy, Debug, PartialEq, Eq)]
#[non_exhaustive]
pub struct Totals {
    /// The packets.
    pub all: Traffic,
    /// How many of them had more bytes than were captured.
    pub truncated: u64,
    /// How many are of the class `other-link`.
    pub other_link: u64,
    /// How many are of the class `not-ip`, or `not-ipv4` in a report without IPv6.
    pub not_ip: u64,
    /// How many are of the class `short`.
    pub short: u64,
    /// How many are of the class `cut`.
    pub cut: u64,
    /// How many are of the class `bad`.
    pub bad: u64,
    /// How many are of the class `unjoined`.
    pub unjoined: u64,
    /// How many are of the class `counted`.
    pub counted: u64,
    /// How many datagrams were joined.
    pub joined: u64,
    /// How many groups of fragments were given up.
    pub given_up: u64,
    /// How many conversations there are.
    pub talks: u64,
    /// How many files there are.
    pub files: u32,
}

/// The table of a report over 1 to 32 captures in memory, which takes their packets one by one, in the order of exact
/// time.
pub struct Table<'a> {
    table: RawReader,
    files: PhantomData<&'a [u8]>,
}

// SAFETY: what a table holds is its own, and its bytes are only read
unsafe impl Send for Table<'_> {}

impl<'a> Table<'a> {
    /// A table of those captures, which has taken no packet.
    pub fn open(files: &[&'a [u8]], options: ReportOptions) -> Result<Table<'a>, Error> {
        let raw = files_of(files);
        let mut table = Table { table: CLOSED, files: PhantomData };
        // SAFETY: the table begins as zero, and the bytes outlive it
        match unsafe { capt_table_open(&mut table.table, raw.as_ptr(), raw.len(), options.flags()) } {
            DONE => Ok(table),
            status => Err(error_of(status, RawPlace::default(), Vec::new())),
        }
    }

    /// Takes the packet that comes next; false if none is left. That and a refusal come again.
    pub fn step(&mut self) -> Result<bool, Error> {
        let mut place = RawPlace::default();
        // SAFETY: the table is open; so in each call below
        match unsafe { capt_table_step(&mut self.table, &mut place) } {
            PACKET => Ok(true),
            DONE => Ok(false),
            status => Err(error_of(status, place, Vec::new())),
        }
    }

    /// The report over the packets that were taken so far.
    pub fn text(&mut self) -> Result<String, Error> {
        made(|text, place| unsafe { capt_table_write(&mut self.table, text, place) }).map(lines)
    }

    /// The conversation at a place in the order of the report's lines, from 0. It keeps its place when more packets are
    /// taken.
    pub fn talk(&mut self, place: usize) -> Option<Talk> {
        let mut raw = RawTalk::default();
        let status = unsafe { capt_table_talk(&mut self.table, place, &mut raw) };
        (status == DONE).then(|| Talk {
            protocol: raw.protocol,
            a: raw.a.endpoint(),
            b: raw.b.endpoint(),
            forward: raw.forward.traffic(),
            backward: raw.backward.traffic(),
            first: raw.first.time(),
            last: raw.last.time(),
        })
    }

    /// All conversations, in the order of the report's lines.
    pub fn talks(&mut self) -> Vec<Talk> {
        (0..).map_while(|place| self.talk(place)).collect()
    }

    /// What is counted of the file of that number, from 1.
    pub fn file(&mut self, number: u32) -> Option<FileCounts> {
        let mut raw = RawFile::default();
        let status = unsafe { capt_table_file(&mut self.table, number, &mut raw) };
        let formats = [None, Some(Format::Pcap), Some(Format::Pcapng)];
        (status == DONE).then(|| FileCounts {
            format: formats[raw.format as usize],
            all: raw.all.traffic(),
            truncated: raw.truncated,
            skipped: raw.skipped,
            first: raw.first.time(),
            last: raw.last.time(),
            was_cut: raw.was_cut,
        })
    }

    /// What is counted of all packets.
    pub fn totals(&mut self) -> Totals {
        let mut raw = RawTotals::default();
        unsafe { capt_table_totals(&mut self.table, &mut raw) };
        Totals {
            all: raw.all.traffic(),
            truncated: raw.truncated,
            other_link: raw.other_link,
            not_ip: raw.not_ip,
            short: raw.too_short,
            cut: raw.cut,
            bad: raw.bad,
            unjoined: raw.unjoined,
            counted: raw.counted,
            joined: raw.joined,
            given_up: raw.given_up,
            talks: raw.talks,
            files: raw.files,
        }
    }
}

impl fmt::Debug for Table<'_> {
    fn fmt(&self, out: &mut fmt::Formatter<'_>) -> fmt::Result {
        out.debug_struct("Table").finish_non_exhaustive()
    }
}

impl Drop for Table<'_> {
    fn drop(&mut self) {
        // SAFETY: a table may be closed at any time
        unsafe { capt_close(&mut self.table) }
    }
}

/// A format of captures.
#[derive(Clone, Copy, Debug, PartialEq, Eq)]
#[non_exhaustive]
pub enum Format {
    /// pcap.
    Pcap,
    /// pcapng.
    Pcapng,
}

/// An order of bytes.
#[derive(Clone, Copy, Debug, PartialEq, Eq)]
pub enum Order {
    /// The least byte first.
    Little,
    /// The greatest byte first.
    Big,
}

// The flags for a file that is written.
fn form(to: Format, order: Order, allow_cut: bool) -> u32 {
    let format = if to == Format::Pcap { TO_PCAP } else { 0 };
    let order = if order == Order::Big { BIG } else { 0 };
    cut(allow_cut) | format | order
}

/// A capture file that is written packet by packet, in memory. What [`Writer::take`] gives, one after another, is the
/// file.
pub struct Writer {
    writer: RawReader,
}

// SAFETY: what a writer holds is its own
unsafe impl Send for Writer {}

impl Writer {
    /// A file of that format, in that order of bytes, without packets.
    pub fn open(to: Format, order: Order) -> Result<Writer, Error> {
        let mut writer = Writer { writer: CLOSED };
        // SAFETY: the writer begins as zero
        match unsafe { capt_writer_open(&mut writer.writer, form(to, order, false)) } {
            DONE => Ok(writer),
            _ => Err(Error::Memory),
        }
    }

    /// Puts a packet at the end of the file. If that can't hold it exactly, it is refused. After an error the file is
    /// as it was.
    pub fn put(&mut self, packet: &Packet<'_>) -> Result<(), Error> {
        let carry = packet.seconds.checked_add(1 << 63).and_then(|seconds| u32::try_from(seconds >> 64).ok());
        let Some(carry) = carry else {
            return Err(Error::NoPacket);
        };
        let raw = RawPacket {
            frame: packet.data.as_ptr(),
            offset: packet.offset,
            instance: packet.instance,
            // what the carry leaves fits
            seconds: (packet.seconds - (i128::from(carry) << 64)) as i64,
            numerator: packet.numerator,
            denominator: packet.denominator,
            resolution: packet.resolution,
            time_offset: packet.time_offset,
            carry,
            captured: 0,
            original: packet.original,
            snaplen: packet.snaplen,
            link: packet.link,
        };
        let mut place = RawPlace::default();
        // SAFETY: the captured bytes are there while the call runs
        let status = unsafe {
            capt_writer_put(&mut self.writer, &raw, packet.data.as_ptr(), packet.data.len(), &mut place)
        };
        match status {
            DONE => Ok(()),
            REFUSED | MEMORY => Err(error_of(status, place, Vec::new())),
            _ => Err(Error::NoPacket),
        }
    }

    /// What was written since the last call.
    pub fn take(&mut self) -> Result<Vec<u8>, Error> {
        // SAFETY: the writer is open
        made(|text, _| unsafe { capt_writer_take(&mut self.writer, text) })
    }
}

impl fmt::Debug for Writer {
    fn fmt(&self, out: &mut fmt::Formatter<'_>) -> fmt::Result {
        out.debug_struct("Writer").finish_non_exhaustive()
    }
}

impl Drop for Writer {
    fn drop(&mut self) {
        // SAFETY: a writer may be closed at any time
        unsafe { capt_close(&mut self.writer) }
    }
}

/// A capture as a file of a format.
pub fn convert(file: &[u8], to: Format, order: Order, allow_cut: bool) -> Result<Vec<u8>, Error> {
    job_text(CONVERT, &[file], form(to, order, allow_cut))
}

/// 1 to 32 captures as one pcapng file, sorted by exact time.
pub fn merge(files: &[&[u8]], order: Order, allow_cut: bool) -> Result<Vec<u8>, Error> {
    merge_to(files, Format::Pcapng, order, allow_cut)
}

/// The same as one file of a format.
pub fn merge_to(files: &[&[u8]], to: Format, order: Order, allow_cut: bool) -> Result<Vec<u8>, Error> {
    job_text(MERGE, files, form(to, order, allow_cut))
}

/// The whole IPv4 datagrams of 1 to 32 captures, fragments joined, as one pcapng file.
pub fn join(files: &[&[u8]], order: Order, allow_cut: bool) -> Result<Vec<u8>, Error> {
    join_to(files, Format::Pcapng, order, allow_cut)
}

/// The same as one file of a format.
pub fn join_to(files: &[&[u8]], to: Format, order: Order, allow_cut: bool) -> Result<Vec<u8>, Error> {
    job_text(JOIN, files, form(to, order, allow_cut))
}
