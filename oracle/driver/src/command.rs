//! Lines into commands.

use crate::host::Shape;

pub enum Command {
    Host(u64),
    Region(Shape),
    Collect,
    Frames(u64, Vec<u32>),
    Insert(u64, Shape),
    Remove(u64, u64, u64),
    Count,
    Find(u64),
    Last,
    Add(u64, u64),
    Sub(u64, u64),
    Offset(u64, u64),
    Mask(u64, u64),
    Slices(u64, u64, u64),
    Bytes(u64, u64),
    Digest,
}

/// The longest host buffer, and the most bytes that one line may show.
const MOST: u64 = 0x1000000;

/// Decimal, or hexadecimal after `0x`, within 64 bits. The digits are tested first since the
/// parser of the standard library takes a sign.
fn number(word: &str) -> Option<u64> {
    let (digits, radix) = match word.strip_prefix("0x") {
        Some(digits) => (digits, 16),
        None => (word, 10),
    };
    let plain = !digits.is_empty() && digits.chars().all(|digit| digit.is_digit(radix));
    plain.then(|| u64::from_str_radix(digits, radix).ok()).flatten()
}

fn shape(words: &[&str]) -> Option<Shape> {
    let (start, length, place) = match words {
        ["ram", start, length, place] => (start, length, Some(number(place)?)),
        ["window", start, length] => (start, length, None),
        _ => return None,
    };
    Some(Shape { start: number(start)?, length: number(length)?, place })
}

/// The command on a line, if it is one. Words are separated by single blanks, so a blank too many
/// leaves an empty word, and that is neither a number nor a name.
pub fn parse(line: &str) -> Option<Command> {
    let words: Vec<&str> = line.split(' ').collect();
    Some(match words.as_slice() {
        ["host", length] => Command::Host(number(length).filter(|length| *length <= MOST)?),
        ["ram" | "window", ..] => Command::Region(shape(&words)?),
        ["collect"] => Command::Collect,
        ["frames", base, entries @ ..] => {
            let base = number(base)?;
            let entry = |word: &&str| u32::try_from(number(word)?).ok();
            Command::Frames(base, entries.iter().map(entry).collect::<Option<_>>()?)
        }
        ["insert", room, region @ ..] => Command::Insert(number(room)?, shape(region)?),
        ["remove", room, start, length] => {
            Command::Remove(number(room)?, number(start)?, number(length)?)
        }
        ["count"] => Command::Count,
        ["find", address] => Command::Find(number(address)?),
        ["last"] => Command::Last,
        ["add", address, n] => Command::Add(number(address)?, number(n)?),
        ["sub", address, n] => Command::Sub(number(address)?, number(n)?),
        ["offset", address, base] => Command::Offset(number(address)?, number(base)?),
        ["mask", address, mask] => Command::Mask(number(address)?, number(mask)?),
        ["slices", address, count, access] => {
            Command::Slices(number(address)?, number(count)?, number(access)?)
        }
        ["bytes", place, count] => {
            Command::Bytes(number(place)?, number(count).filter(|count| *count <= MOST)?)
        }
        ["digest"] => Command::Digest,
        _ => return None,
    })
}
