// The plain twin of the load `values` of crates/bench, for bench/values.sh: the same values, written and read again in ordinary Rust.
use std::env;

enum Value {
    Text(String),
    Buffer(Vec<u8>),
    Array(Vec<Value>),
    Int(i32),
}

fn push_number(out: &mut Vec<u8>, mut n: u32) {
    while n >= 128 {
        out.push((n % 128 + 128) as u8);
        n /= 128;
    }
    out.push(n as u8);
}

fn write(out: &mut Vec<u8>, value: &Value) {
    match value {
        Value::Text(text) => {
            out.push(1);
            push_number(out, text.len() as u32);
            out.extend_from_slice(text.as_bytes());
        }
        Value::Buffer(bytes) => {
            out.push(2);
            push_number(out, bytes.len() as u32);
            out.extend_from_slice(bytes);
        }
        Value::Array(items) => {
            out.push(4);
            push_number(out, items.len() as u32);
            for item in items {
                write(out, item);
            }
        }
        Value::Int(n) => {
            out.push(6);
            push_number(out, *n as u32);
        }
    }
}

fn read_number(bytes: &[u8], at: &mut usize) -> Option<u32> {
    let mut n = 0u32;
    for shift in [0, 7, 14, 21, 28] {
        let byte = *bytes.get(*at)?;
        *at += 1;
        n |= u32::from(byte & 127) << shift;
        if byte < 128 {
            return Some(n);
        }
    }
    None
}

fn read_bytes<'a>(bytes: &'a [u8], at: &mut usize) -> Option<&'a [u8]> {
    let len = read_number(bytes, at)? as usize;
    let run = bytes.get(*at..*at + len)?;
    *at += len;
    Some(run)
}

fn read(bytes: &[u8], at: &mut usize, left: u8) -> Option<Value> {
    if left == 0 {
        return None;
    }
    let tag = *bytes.get(*at)?;
    *at += 1;
    match tag {
        1 => Some(Value::Text(std::str::from_utf8(read_bytes(bytes, at)?).ok()?.to_string())),
        2 => Some(Value::Buffer(read_bytes(bytes, at)?.to_vec())),
        4 => {
            let count = read_number(bytes, at)?;
            let mut items = Vec::new();
            for _ in 0..count {
                items.push(read(bytes, at, left - 1)?);
            }
            Some(Value::Array(items))
        }
        6 => Some(Value::Int(read_number(bytes, at)? as i32)),
        _ => None,
    }
}

fn round(value: &Value) -> usize {
    let mut out = Vec::new();
    write(&mut out, value);
    let mut at = 0;
    let value = read(&out, &mut at, 128);
    std::hint::black_box(value).map_or(0, |_| at)
}

fn main() {
    let numbers: Vec<u32> = env::args().skip(1).map(|word| word.parse().unwrap_or(0)).collect();
    let (count, bytes, rounds) = (numbers[0], numbers[1], numbers[2]);
    let items = (0..count)
        .map(|n| if n % 2 == 0 { Value::Int(n as i32) } else { Value::Text("hi".to_string()) })
        .collect();
    let (array, buffer) = (Value::Array(items), Value::Buffer(vec![7; bytes as usize]));
    let mut last = 0;
    for _ in 0..rounds {
        last = round(&array).max(round(&buffer));
    }
    println!("items={count} bytes={bytes} rounds={rounds} read={last}");
}
