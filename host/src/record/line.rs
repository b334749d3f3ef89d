//! The record language: what one line says.

use crate::rules::order::{Call, Order};

/// The most bytes a position line may carry.
const LONGEST_POSITION: usize = 65535;

#[derive(Clone, Debug, PartialEq, Eq)]
pub enum Line {
    /// A blank line or a remark.
    Nothing,
    Position(Vec<u8>),
    Buffer(usize),
    Call(Order),
    Show,
    Lent,
    Roster,
    /// A line for people, which this referee passes over.
    Passed,
    Unreadable,
}

/// Read one line, given without its newline.
pub fn read(line: &[u8]) -> Line {
    if line.first() == Some(&b'#') {
        return Line::Nothing;
    }
    let words = words(line);
    match words.split_first() {
        None => Line::Nothing,
        Some((word, operands)) => read_words(word, operands).unwrap_or(Line::Unreadable),
    }
}

/// Words stand apart by blanks or tabs; blanks and a carriage return at the end do no harm.
fn words(line: &[u8]) -> Vec<&[u8]> {
    let end = line.iter().rposition(|byte| !b" \t\r".contains(byte)).map_or(0, |last| last + 1);
    line[..end].split(|byte| b" \t".contains(byte)).filter(|word| !word.is_empty()).collect()
}

fn read_words(word: &[u8], operands: &[&[u8]]) -> Option<Line> {
    match (word, operands) {
        (b"position", [digits]) => bytes(digits).map(Line::Position),
        (b"buffer", [length]) => number(length).map(|length| Line::Buffer(usize::from(length))),
        (b"show", []) => Some(Line::Show),
        (b"lent", []) => Some(Line::Lent),
        (b"roster", []) => Some(Line::Roster),
        (b"echo", [] | [b"off"]) | (b"help", []) | (b"map", []) => Some(Line::Passed),
        (b"map", [nationality]) if number(nationality)? <= 4 => Some(Line::Passed),
        _ => {
            let call = Call::named(word)?;
            let lists: Option<Vec<Vec<u16>>> = operands.split(|operand| *operand == b"/").map(numbers).collect();
            Order::from_lists(call, &lists?).map(Line::Call)
        }
    }
}

/// A list of numbers; none if a word of it is no number.
fn numbers(words: &[&[u8]]) -> Option<Vec<u16>> {
    words.iter().map(|word| number(word)).collect()
}

/// A decimal number, 0 to 65535, leading zeros allowed.
fn number(word: &[u8]) -> Option<u16> {
    let mut value: u32 = 0;
    for digit in word {
        if !digit.is_ascii_digit() {
            return None;
        }
        value = value * 10 + u32::from(digit - b'0');
        if value > 65535 {
            return None;
        }
    }
    (!word.is_empty()).then_some(value as u16)
}

/// Hex digits in either case, an even number of them; `-` is the empty position.
fn bytes(word: &[u8]) -> Option<Vec<u8>> {
    if word == b"-" {
        return Some(Vec::new());
    }
    let pairs = word.len() / 2;
    if word.len() != 2 * pairs || pairs > LONGEST_POSITION {
        return None;
    }
    word.chunks(2).map(|pair| Some(16 * hex_digit(pair[0])? + hex_digit(pair[1])?)).collect()
}

fn hex_digit(digit: u8) -> Option<u8> {
    (digit as char).to_digit(16).map(|value| value as u8)
}

/// Bytes as hex digits, lower case; `-` for none.
pub fn hex_digits(bytes: &[u8]) -> String {
    if bytes.is_empty() {
        return "-".to_string();
    }
    let digit = |value: u8| char::from(b"0123456789abcdef"[usize::from(value)]);
    bytes.iter().flat_map(|byte| [digit(byte >> 4), digit(byte & 15)]).collect()
}

/// An order as a record line; the slash is left out where nothing stands behind it.
pub fn order_text(order: &Order) -> String {
    let words = |numbers: &[u16]| numbers.iter().map(|number| format!(" {number}")).collect::<String>();
    let text = format!("{}{}", order.call().name(), words(&order.numbers()));
    match order.second_list() {
        [] => text,
        second => format!("{text} /{}", words(second)),
    }
}
