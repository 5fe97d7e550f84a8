// Reads a million input lines, takes their numbers and writes them filled, by the proved library and by plain Rust.
use std::hint::black_box;
use std::time::Instant;

extern "C" {
    fn lines_bench(buffer: *const u8, len: usize, result: u32) -> u64;
}

// How many fields a line of a kind has.
fn fields_of(kind: u8) -> Option<usize> {
    Some(match kind {
        27 | 28 | 30 | 31 => 0,
        21 | 24 | 29 | 32 => 1,
        11 | 15 | 16 | 25 | 26 => 2,
        12 | 17 | 20 | 23 => 3,
        10 | 22 => 4,
        19 => 5,
        13 => 7,
        _ => return None,
    })
}

struct Read<'a> {
    kind: u8,
    count: usize,
    fields: [&'a [u8]; 7],
}

// The place after the number at `at`, or the place where it breaks off.
fn number(line: &[u8], at: usize) -> Result<usize, usize> {
    let most = if line.get(at) == Some(&b'0') { 1 } else { 8 };
    let digits = line[at..].iter().take(most).take_while(|b| b.is_ascii_digit()).count();
    if digits == 0 { Err(at) } else { Ok(at + digits) }
}

fn kind(line: &[u8]) -> Result<(u8, usize), usize> {
    let [a, ..] = line else { return Err(0) };
    if !(b'1'..=b'3').contains(a) {
        return Err(0);
    }
    let Some(b) = line.get(1).filter(|b| b.is_ascii_digit()) else { return Err(1) };
    let kind = 10 * (a - b'0') + (b - b'0');
    match fields_of(kind) {
        Some(count) => Ok((kind, count)),
        None => Err(1),
    }
}

fn read(line: &[u8]) -> Result<Read<'_>, usize> {
    let (kind, count) = kind(line)?;
    let mut fields: [&[u8]; 7] = [&[]; 7];
    let mut at = 2;
    for field in fields.iter_mut().take(count) {
        if line.get(at) != Some(&b' ') {
            return Err(at);
        }
        let end = number(line, at + 1)?;
        *field = &line[at + 1..end];
        at = end;
    }
    if line.get(at) != Some(&b'\n') {
        return Err(at);
    }
    if at + 1 < line.len() {
        return Err(at + 1);
    }
    Ok(Read { kind, count, fields })
}

// The number that a field writes.
fn value(field: &[u8]) -> u64 {
    field.iter().fold(0, |n, b| 10 * n + u64::from(b - b'0'))
}

struct Text {
    bytes: [u8; 170],
    len: usize,
}

impl Text {
    fn new() -> Text {
        Text { bytes: [0; 170], len: 0 }
    }

    fn push(&mut self, part: &[u8]) {
        self.bytes[self.len..self.len + part.len()].copy_from_slice(part);
        self.len += part.len();
    }

    fn push_number(&mut self, mut n: u32) {
        let mut digits = [0; 10];
        let mut at = digits.len();
        loop {
            at -= 1;
            digits[at] = b'0' + (n % 10) as u8;
            n /= 10;
            if n == 0 {
                break;
            }
        }
        self.push(&digits[at..]);
    }

    fn push_answer(&mut self, reply: u32, result: u32) {
        self.push(b" : ");
        self.push_number(reply);
        self.push(b" ");
        self.push_number(result);
        self.push(b"\n");
    }
}

// As in the library: the line's bytes up to its line feed, and the answer, which has at most eight digits. The sum of the
// line's numbers comes back.
fn filled(text: &mut Text, line: &[u8], result: u32) -> Option<u64> {
    text.len = 0;
    match read(line) {
        Ok(read) => {
            // So that the kind is read, though the text needs it not.
            black_box(read.kind);
            let numbers = read.fields[..read.count].iter().map(|field| value(field)).sum();
            text.push(&line[..line.len() - 1]);
            text.push_answer(0, result);
            (result <= 99_999_999).then_some(numbers)
        }
        Err(start) => {
            text.push(b"99");
            text.push_answer(2, start as u32);
            Some(0)
        }
    }
}

fn checksum(bytes: &[u8]) -> u64 {
    bytes.iter().zip(1u64..).fold(0, |sum, (b, place)| sum.wrapping_add(place.wrapping_mul(*b as u64)))
}

fn plain(buffer: &[u8], result: u32) -> u64 {
    let mut text = Text::new();
    let mut sum: u64 = 0;
    for line in buffer.split_inclusive(|b| *b == b'\n') {
        if let Some(numbers) = filled(&mut text, line, result) {
            sum = sum.wrapping_mul(31).wrapping_add(checksum(&text.bytes[..text.len])).wrapping_add(numbers);
        }
    }
    sum
}

fn proved(buffer: &[u8], result: u32) -> u64 {
    unsafe { lines_bench(buffer.as_ptr(), buffer.len(), result) }
}

struct Random(u64);

impl Random {
    fn below(&mut self, n: u64) -> u64 {
        self.0 ^= self.0 << 13;
        self.0 ^= self.0 >> 7;
        self.0 ^= self.0 << 17;
        self.0 % n
    }
}

// Lines of all kinds with numbers of one to eight digits; one line in fifty has a wrong byte.
fn generate(count: usize) -> Vec<u8> {
    let mut random = Random(0x9e3779b97f4a7c15);
    let mut buffer = Vec::new();
    for _ in 0..count {
        let kind = loop {
            let kind = 10 + random.below(23) as u8;
            if fields_of(kind).is_some() {
                break kind;
            }
        };
        let start = buffer.len();
        buffer.extend_from_slice(kind.to_string().as_bytes());
        for _ in 0..fields_of(kind).unwrap() {
            let limit = 10u64.pow(1 + random.below(8) as u32);
            buffer.push(b' ');
            buffer.extend_from_slice(random.below(limit).to_string().as_bytes());
        }
        if random.below(50) == 0 {
            let at = start + random.below((buffer.len() - start) as u64) as usize;
            buffer[at] = b" 0:x\t"[random.below(5) as usize];
        }
        buffer.push(b'\n');
    }
    buffer
}

fn best(run: impl Fn() -> u64) -> f64 {
    (0..15)
        .map(|_| {
            let start = Instant::now();
            std::hint::black_box(run());
            start.elapsed().as_secs_f64()
        })
        .fold(f64::MAX, f64::min)
}

fn main() {
    let buffer = generate(1_000_000);
    for result in [0, 7, 4321, 99_999_999, 100_000_000] {
        assert_eq!(proved(&buffer, result), plain(&buffer, result), "the two disagree");
    }
    let plain = best(|| plain(&buffer, 7));
    let proved = best(|| proved(&buffer, 7));
    println!("1000000 lines, {} bytes", buffer.len());
    println!("plain Rust {:.1} ms, proved {:.1} ms", 1e3 * plain, 1e3 * proved);
    println!("ratio of speeds (proved / plain Rust) {:.2}", plain / proved);
}
