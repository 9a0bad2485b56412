//! A second reader, written from the rules' words alone: the letters' arguments are data, and the text is any bytes. It
//! judges the proved reader where the original cannot, and it is held to the original where that can.

/// A command as it is stored: its letter, its numbers and the offset of the letter that made it.
pub type Stored = (u8, Vec<f32>, usize);

/// A refusal: its number, and what it carries.
pub type Refused = (u32, Vec<u64>);

// what a group of each letter has: a coordinate of either axis, a plain number or a flag
const GROUPS: [(u8, &str); 9] = [
    (b'M', "xy"),
    (b'L', "xy"),
    (b'H', "x"),
    (b'V', "y"),
    (b'C', "xyxyxy"),
    (b'S', "xyxy"),
    (b'Q', "xyxy"),
    (b'T', "xy"),
    (b'A', "nnnffxy"),
];

/// The commands of a text, or its first refusal.
pub fn read(text: &[u8]) -> Result<Vec<Stored>, Refused> {
    let mut commands: Vec<Stored> = Vec::new();
    if text.len() > 65_536 {
        return Err((1, vec![text.len() as u64]));
    }
    let (mut remembered, mut current, mut start) = (None, None, [0.0, 0.0]);
    // where the remembered letter stands
    let mut offset = 0;
    // in capitals the letter of the last command
    let mut before = b'Z';
    let mut at = past_separators(text, 0);
    while at < text.len() {
        // "a letter becomes the remembered command; any other byte repeats it; with none, 7 at that byte"
        if text[at].is_ascii_alphabetic() {
            remembered = Some(text[at]);
            offset = at;
            at += 1;
        }
        let letter = remembered.ok_or((7, vec![at as u64]))?;
        let capital = letter.to_ascii_uppercase();
        if capital == b'Z' {
            commands.push((b'Z', vec![], offset));
            (remembered, current, before) = (None, Some(start), b'Z');
        } else {
            let Some((_, group)) = GROUPS.iter().find(|(name, _)| *name == capital) else {
                return Err((6, vec![u64::from(letter), at as u64 - 1]));
            };
            // "LHVCQA need a current point, else 7 just after the letter", and so do S and T
            if capital != b'M' && current.is_none() {
                return Err((7, vec![at as u64]));
            }
            // "a number must start after separators, else 3 at the place before those separators"
            if !number_starts(text, at) {
                return Err((3, vec![at as u64]));
            }
            let mut first = true;
            while number_starts(text, at) {
                let base = if letter == capital { [0.0, 0.0] } else { current.unwrap_or([0.0, 0.0]) };
                let added = letter != capital && current.is_some();
                let mut numbers = Vec::new();
                for argument in group.bytes() {
                    numbers.push(match argument {
                        b'f' => flag(text, &mut at)?,
                        axis => {
                            let value = number(text, &mut at)?;
                            match axis {
                                b'x' if added => base[0] + value,
                                b'y' if added => base[1] + value,
                                _ => value,
                            }
                        }
                    });
                }
                // "M: first pair MoveTo, more pairs LineTo. H and V give LineTo."
                let [x, y] = current.unwrap_or([0.0, 0.0]);
                // "the last control mirrored through the current point when the previous command was C or S (for S), Q or T
                // (for T), and the current point itself otherwise": a curve's last control stands before its end
                let control = |makers: &[u8]| match commands.last() {
                    Some((_, last, _)) if makers.contains(&before) => {
                        let [.., u, v, _, _] = last[..] else { panic!("a curve has a control") };
                        [x + (x - u), y + (y - v)]
                    }
                    _ => [x, y],
                };
                let stored = match capital {
                    b'M' if !first => b'L',
                    b'H' | b'V' => b'L',
                    b'S' => b'C',
                    b'T' => b'Q',
                    _ => capital,
                };
                match capital {
                    b'H' => numbers.push(y),
                    b'V' => numbers.insert(0, x),
                    b'S' => drop(numbers.splice(..0, control(b"CS"))),
                    b'T' => drop(numbers.splice(..0, control(b"QT"))),
                    _ => {}
                }
                let end = [numbers[numbers.len() - 2], numbers[numbers.len() - 1]];
                if stored == b'M' {
                    start = end;
                }
                current = Some(end);
                first = false;
                before = capital;
                commands.push((stored, numbers, offset));
            }
        }
        at = past_separators(text, at);
    }
    Ok(commands)
}

// "comma, space, tab, LF, FF, CR, in any number"
fn past_separators(text: &[u8], at: usize) -> usize {
    let separators = text[at..].iter().take_while(|byte| [0x2C, 0x20, 0x09, 0x0A, 0x0C, 0x0D].contains(*byte));
    at + separators.count()
}

fn number_starts(text: &[u8], at: usize) -> bool {
    text.get(past_separators(text, at)).is_some_and(|byte| b"0123456789+-.".contains(byte))
}

fn past_digits(text: &[u8], at: usize) -> usize {
    at + text[at..].iter().take_while(|byte| (48..58).contains(*byte)).count()
}

fn past_sign(text: &[u8], at: usize) -> usize {
    at + usize::from(text[at..].first().is_some_and(|byte| *byte == 43 || *byte == 45))
}

// "optional sign, digits, optional point and digits, at least one digit in all, optional exponent. It takes the longest text."
fn number(text: &[u8], at: &mut usize) -> Result<f32, Refused> {
    let start = past_separators(text, *at);
    if start == text.len() {
        return Err((2, vec![start as u64]));
    }
    let whole = past_sign(text, start);
    let mut end = past_digits(text, whole);
    let mut digits = end - whole;
    if text.get(end) == Some(&46) {
        let fraction = end + 1;
        end = past_digits(text, fraction);
        digits += end - fraction;
    }
    if digits == 0 {
        return Err((3, vec![start as u64]));
    }
    if text.get(end).is_some_and(|byte| *byte == 101 || *byte == 69) {
        let exponent = past_sign(text, end + 1);
        let past = past_digits(text, exponent);
        if past == exponent {
            return Err((4, vec![end as u64]));
        }
        end = past;
    }
    *at = end;
    let digits = std::str::from_utf8(&text[start..end]).expect("a number has no other bytes");
    // what is scanned converts: no refusal has the number 0, so that a text that did not would fail the run
    digits.parse().map_err(|_| (0, vec![start as u64]))
}

fn flag(text: &[u8], at: &mut usize) -> Result<f32, Refused> {
    let place = past_separators(text, *at);
    *at = place + 1;
    match text.get(place) {
        None => Err((2, vec![place as u64])),
        Some(48) => Ok(0.0),
        Some(49) => Ok(1.0),
        Some(_) => Err((5, vec![place as u64])),
    }
}

/// Whether letters and numbers are a command list: the refusal where they are not.
pub fn check(letters: &[u8], numbers: &[u32]) -> Result<(), Refused> {
    if letters.len() > 65_536 {
        return Err((13, vec![letters.len() as u64]));
    }
    let mut left = numbers;
    for (place, letter) in letters.iter().enumerate() {
        let bad = Err((9, vec![place as u64]));
        let count = match letter {
            b'M' | b'L' => 2,
            b'Q' => 4,
            b'C' => 6,
            b'A' => 7,
            b'Z' => 0,
            _ => return bad,
        };
        if left.len() < count {
            return bad;
        }
        // "flags are +0 or 1 (-0 is another)"
        if *letter == b'A' && !left[3..5].iter().all(|bits| *bits == 0 || *bits == 0x3F80_0000) {
            return bad;
        }
        left = &left[count..];
    }
    if left.is_empty() { Ok(()) } else { Err((9, vec![letters.len() as u64])) }
}
