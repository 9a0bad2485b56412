//! The original reader, and with it S and T, which it has not. They read like Q and L, byte for byte: so the original is handed
//! the text with those letters, which settles refusals, offsets, ends and all other points, and on its list the first controls
//! are put in by the rule of SVG 1.1, 8.3.6 and 8.3.7.

use animato_path::poly::PathCommand;
use animato_path::svg::{SvgPathError, SvgPathParser};

/// The commands of a text, or the original's refusal.
pub fn try_parse(text: &str) -> Result<Vec<PathCommand>, SvgPathError> {
    let plain: String = text.chars().map(plain).collect();
    let mut commands = SvgPathParser::try_parse(&plain)?;
    if is_smooth(text.as_bytes()) {
        let places = makers(text.as_bytes(), &plain, commands.len());
        let letters: Vec<u8> = places.iter().map(|place| text.as_bytes()[*place]).collect();
        put_in(&mut commands, &letters);
    }
    Ok(commands)
}

/// Where the letter stands that made each of so many commands, of a text that reads.
pub fn offsets(text: &str, count: usize) -> Vec<usize> {
    let plain: String = text.chars().map(plain).collect();
    makers(text.as_bytes(), &plain, count)
}

/// Whether a text has one of the letters that the original does not know.
pub fn is_smooth(text: &[u8]) -> bool {
    text.iter().any(|byte| b"SsTt".contains(byte))
}

fn plain(letter: char) -> char {
    match letter {
        'S' => 'Q',
        's' => 'q',
        'T' => 'L',
        't' => 'l',
        other => other,
    }
}

// The place of the letter that made each command. In a text that reads every letter but e and E is a command's, and its commands
// are those that the original reads more once the text reaches to the next letter.
fn makers(text: &[u8], plain: &str, count: usize) -> Vec<usize> {
    let is_command = |byte: u8| byte.is_ascii_alphabetic() && byte | 32 != b'e';
    let places: Vec<usize> = (0..text.len()).filter(|place| is_command(text[*place])).collect();
    let mut makers = Vec::new();
    for (number, place) in places.iter().enumerate() {
        let read = match places.get(number + 1) {
            Some(next) => SvgPathParser::try_parse(&plain[..*next]).expect("a text reads up to a letter").len(),
            None => count,
        };
        makers.resize(read, *place);
    }
    makers
}

// "the reflection of the second control point on the previous command relative to the current point. (If there is no previous
// command or if the previous command was not an C, c, S or s, assume the first control point is coincident with the current
// point.)", and the same of T
fn put_in(commands: &mut [PathCommand], letters: &[u8]) {
    let (mut current, mut start) = ([0.0, 0.0], [0.0, 0.0]);
    // the last control, and in capitals the letter of the command that it is of
    let mut last = ([0.0, 0.0], b' ');
    for (command, letter) in commands.iter_mut().zip(letters) {
        let capital = letter.to_ascii_uppercase();
        let first = |makers: &[u8]| if makers.contains(&last.1) { mirrored(current, last.0) } else { current };
        match (capital, &*command) {
            (b'S', &PathCommand::QuadTo { control, end }) => {
                *command = PathCommand::CubicTo { control1: first(b"CS"), control2: control, end };
            }
            (b'T', &PathCommand::LineTo(end)) => *command = PathCommand::QuadTo { control: first(b"QT"), end },
            _ => {}
        }
        let (end, control) = match *command {
            PathCommand::MoveTo(end) => {
                start = end;
                (end, end)
            }
            PathCommand::LineTo(end) | PathCommand::ArcTo { end, .. } => (end, end),
            PathCommand::QuadTo { control, end } => (end, control),
            PathCommand::CubicTo { control2, end, .. } => (end, control2),
            PathCommand::ClosePath => (start, start),
        };
        current = end;
        last = (control, capital);
    }
}

// the difference is rounded, then the sum
fn mirrored(point: [f32; 2], control: [f32; 2]) -> [f32; 2] {
    [0, 1].map(|axis| point[axis] + (point[axis] - control[axis]))
}
