// Input lines read, and their answers written.
use crate::book::Program;

// The longest input line with its line feed.
pub const LONGEST: usize = 66;

// How many fields a kind has, if it is one.
fn fields_of(kind: u32) -> Option<usize> {
    Some(match kind {
        10 => 4,
        11 => 2,
        12 => 3,
        13 => 7,
        15 | 16 => 2,
        17 => 3,
        19 => 5,
        20 => 3,
        21 => 1,
        22 => 4,
        23 => 3,
        24 => 1,
        25 | 26 => 2,
        27 | 28 | 30 | 31 => 0,
        29 | 32 => 1,
        _ => return None,
    })
}

// Kind, fields and their number; or the length of the longest start of a faulty line.
fn read(line: &[u8]) -> Result<(u32, [u32; 7], usize), usize> {
    let byte = |at: usize| line.get(at).copied().unwrap_or(0);
    if !(b'1'..=b'3').contains(&byte(0)) {
        return Err(0);
    }
    if !byte(1).is_ascii_digit() {
        return Err(1);
    }
    let kind = u32::from(byte(0) - b'0') * 10 + u32::from(byte(1) - b'0');
    let count = fields_of(kind).ok_or(1usize)?;
    let mut fields = [0; 7];
    let mut at = 2;
    for field in &mut fields[..count] {
        if byte(at) != b' ' {
            return Err(at);
        }
        at += 1;
        let start = at;
        let mut value = 0;
        while byte(at).is_ascii_digit() && at - start < 8 && !(at == start + 1 && byte(start) == b'0') {
            value = value * 10 + u32::from(byte(at) - b'0');
            at += 1;
        }
        if at == start {
            return Err(at);
        }
        *field = value;
    }
    if byte(at) != b'\n' {
        return Err(at);
    }
    if line.len() > at + 1 {
        return Err(at + 1);
    }
    Ok((kind, fields, count))
}

fn write_number(out: &mut Vec<u8>, mut number: u64) {
    let mut digits = [0; 20];
    let mut at = 20;
    loop {
        at -= 1;
        digits[at] = b'0' + (number % 10) as u8;
        number /= 10;
        if number == 0 {
            break;
        }
    }
    out.extend_from_slice(&digits[at..]);
}

// Answers one line, with its line feed if it has one.
pub fn answer(program: &mut Program, line: &[u8], out: &mut Vec<u8>) {
    let (kind, fields, count) = match read(line) {
        Ok(call) => call,
        Err(length) => {
            out.extend_from_slice(b"99 : 2 ");
            write_number(out, length as u64);
            out.push(b'\n');
            return;
        }
    };
    let (reply, result) = match program.perform(kind, &fields[..count]) {
        Ok(result) => (0, result),
        Err(refusal) => refusal,
    };
    out.extend_from_slice(&line[..line.len() - 1]);
    out.extend_from_slice(b" : ");
    write_number(out, u64::from(reply));
    out.push(b' ');
    write_number(out, u64::from(result));
    out.push(b'\n');
    for numbers in &program.statement {
        for (i, number) in numbers.iter().enumerate() {
            if i > 0 {
                out.push(b' ');
            }
            write_number(out, *number);
        }
        out.push(b'\n');
    }
    program.statement.clear();
}
