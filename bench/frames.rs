//! A plain reader of frames for comparison, and the writer of its input.
//!
//!     frames write BODY BYTES    frames in order with bodies of BODY bytes, until BYTES bytes are written
//!     frames read                prints the lines that `agent receive` prints for such an input

use std::io::{self, BufReader, BufWriter, Read, Write};

fn write(body: usize, bytes: usize) -> io::Result<()> {
    let mut out = BufWriter::with_capacity(1 << 16, io::stdout().lock());
    let body: Vec<u8> = (0..body).map(|i| (i * 7) as u8).collect();
    let mut written = 0;
    let mut id = 0u32;
    while written < bytes {
        id += 1;
        out.write_all(&[1])?;
        out.write_all(&id.to_be_bytes())?;
        out.write_all(&0u32.to_be_bytes())?;
        out.write_all(&(body.len() as u32).to_be_bytes())?;
        out.write_all(&body)?;
        written += 13 + body.len();
    }
    out.flush()
}

fn read_header(input: &mut impl Read, header: &mut [u8; 13]) -> io::Result<usize> {
    let mut have = 0;
    while have < header.len() {
        match input.read(&mut header[have..])? {
            0 => return Ok(have),
            n => have += n,
        }
    }
    Ok(have)
}

fn read() -> io::Result<()> {
    const DIGITS: &[u8; 16] = b"0123456789abcdef";
    let mut input = BufReader::with_capacity(1 << 16, io::stdin().lock());
    let mut out = BufWriter::with_capacity(1 << 16, io::stdout().lock());
    let mut header = [0u8; 13];
    let mut body = Vec::new();
    let mut hex = Vec::new();
    let mut heard = 0u32;
    loop {
        let have = read_header(&mut input, &mut header)?;
        if have < header.len() {
            writeln!(out, "end heard={heard} rest={have}")?;
            return out.flush();
        }
        let id = u32::from_be_bytes([header[1], header[2], header[3], header[4]]);
        let len = u32::from_be_bytes([header[9], header[10], header[11], header[12]]);
        body.resize(len as usize, 0);
        input.read_exact(&mut body)?;
        if header[0] == 1 && id == heard + 1 {
            heard = id;
            hex.clear();
            for byte in &body {
                hex.push(DIGITS[(byte >> 4) as usize]);
                hex.push(DIGITS[(byte & 15) as usize]);
            }
            write!(out, "up {id} ")?;
            out.write_all(&hex)?;
            out.write_all(b"\n")?;
        }
    }
}

fn main() -> io::Result<()> {
    let words: Vec<String> = std::env::args().skip(1).collect();
    match words.iter().map(String::as_str).collect::<Vec<_>>().as_slice() {
        ["write", body, bytes] => write(body.parse().unwrap(), bytes.parse().unwrap()),
        ["read"] => read(),
        _ => panic!("usage: frames write BODY BYTES | frames read"),
    }
}
