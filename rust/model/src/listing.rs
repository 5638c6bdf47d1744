//! Document 01's listing, by lines: written with `format!`, read by splitting.

/// Why a listing is refused.
#[derive(Clone, Copy, Debug, PartialEq, Eq)]
pub enum Bad {
    /// 9, at this offset.
    Line(usize),
    /// 10
    TooMany,
}

/// What `write` answers: the bytes, or 12 or 11.
pub fn write(stamp: u32, keys: &[u32], values: &[u32], room: usize) -> Result<Vec<u8>, u32> {
    let inside = keys.iter().all(|k| (1..u32::MAX).contains(k));
    if keys.len() != values.len() || keys.len() > 510 || !inside || !keys.windows(2).all(|w| w[0] < w[1]) {
        return Err(12);
    }
    let mut text = format!("edition=1\nstamp={stamp}\n");
    for (key, value) in keys.iter().zip(values) {
        text += &format!("key={key}\nvalue={value}\n");
    }
    text += &format!("count={}\n", keys.len());
    if text.len() > room {
        return Err(11);
    }
    Ok(text.into_bytes())
}

/// A line's number, where it is `name=` and a decimal without leading zeros that fits 32 bits.
fn number(line: &[u8], name: &str) -> Option<u32> {
    let digits = std::str::from_utf8(line.strip_prefix(name.as_bytes())?.strip_prefix(b"=")?).ok()?;
    let plain = digits.bytes().all(|b| b.is_ascii_digit()) && (digits == "0" || !digits.starts_with('0'));
    if plain { digits.parse().ok() } else { None }
}

/// The pairs of a listing, or the first line that is not allowed where it stands.
pub fn read(bytes: &[u8]) -> Result<Vec<(u32, u32)>, Bad> {
    let mut pairs: Vec<(u32, u32)> = vec![];
    let mut open: Option<u32> = None;
    let mut offset = 0;
    for (i, line) in bytes.split_inclusive(|b| *b == 10).enumerate() {
        let bad = Err(Bad::Line(offset));
        let Some(text) = line.strip_suffix(b"\n") else { return bad };
        match (i, open) {
            (0, _) if text == b"edition=1" => {}
            (1, _) if number(text, "stamp").is_some() => {}
            (0 | 1, _) => return bad,
            (_, Some(key)) => match number(text, "value") {
                Some(value) => {
                    pairs.push((key, value));
                    open = None;
                }
                None => return bad,
            },
            (_, None) => {
                if let Some(key) = number(text, "key") {
                    if key <= pairs.last().map_or(0, |p| p.0) || key == u32::MAX {
                        return bad;
                    }
                    if pairs.len() == 510 {
                        return Err(Bad::TooMany);
                    }
                    open = Some(key);
                } else if number(text, "count") == Some(pairs.len() as u32) {
                    let end = offset + line.len();
                    return if end == bytes.len() { Ok(pairs) } else { Err(Bad::Line(end)) };
                } else {
                    return bad;
                }
            }
        }
        offset += line.len();
    }
    Err(Bad::Line(bytes.len()))
}
