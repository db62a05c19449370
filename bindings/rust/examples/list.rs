//! Prints what `capt list FILE` prints; for `-` it reads standard input, and without a word it feeds it piece by piece.
use std::io::Read;

fn show(number: u64, packet: capt::Packet) {
    print!("packet {number} offset {} time ", packet.offset);
    match packet.denominator {
        0 => print!("-"),
        denominator => print!("{}+{}/{denominator}", packet.seconds, packet.numerator),
    }
    let data: String = packet.data.iter().take(16).map(|byte| format!("{byte:02x}")).collect();
    let data = if data.is_empty() { "-" } else { &data };
    println!(" captured {} original {} link {} data {data}", packet.data.len(), packet.original, packet.link);
}

fn list(name: &str) -> Result<(), Box<dyn std::error::Error>> {
    let bytes = std::fs::read(name)?;
    let mut capture = capt::Capture::open(&bytes, false)?;
    let mut number = 0;
    while let Some(packet) = capture.next()? {
        number += 1;
        show(number, packet);
    }
    Ok(())
}

fn list_fed(mut input: impl Read) -> Result<(), Box<dyn std::error::Error>> {
    let mut fed = capt::Fed::open(false)?;
    let (mut number, mut piece) = (0, [0; 1000]);
    loop {
        match fed.next()? {
            capt::Next::Packet(packet) => {
                number += 1;
                show(number, packet);
            }
            capt::Next::More => match input.read(&mut piece)? {
                0 => fed.end(),
                len => fed.feed(&piece[..len])?,
            },
            capt::Next::End => return Ok(()),
        }
    }
}

fn list_read(input: impl Read) -> Result<(), Box<dyn std::error::Error>> {
    let mut reader = capt::Reader::open(input, false)?;
    let mut number = 0;
    while let Some(packet) = reader.next()? {
        number += 1;
        show(number, packet);
    }
    Ok(())
}

fn main() {
    let result = match std::env::args().nth(1) {
        Some(name) if name == "-" => list_read(std::io::stdin()),
        Some(name) => list(&name),
        None => list_fed(std::io::stdin()),
    };
    if let Err(error) = result {
        eprintln!("{error}");
        std::process::exit(1);
    }
}
