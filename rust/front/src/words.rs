//! The words of a line that other programs read too: numbers, readings and masks, and what is wrong with one.

use std::fmt;

/// What is wrong with a line, in words for whoever typed it.
#[derive(Clone, Debug, PartialEq, Eq)]
pub struct Fault(String);

impl Fault {
    /// In these words.
    pub fn new(what: impl Into<String>) -> Fault {
        Fault(what.into())
    }

    /// The same with a further sentence.
    pub fn and(&self, sentence: &str) -> Fault {
        Fault(format!("{}; {sentence}", self.0))
    }
}

impl fmt::Display for Fault {
    fn fmt(&self, f: &mut fmt::Formatter<'_>) -> fmt::Result {
        f.write_str(&self.0)
    }
}

/// The fault that says so.
pub fn fault<T>(what: impl Into<String>) -> Result<T, Fault> {
    Err(Fault::new(what))
}

/// How much of a word is shown: whoever typed it knows it by its start, and a file that is no text may have one of
/// megabytes.
const SHOWN: usize = 40;

/// A word of the input in quotes, cut where it is long; what is no ordinary character is shown by its number.
pub fn shown(word: &str) -> String {
    match word.char_indices().nth(SHOWN) {
        None => format!("{word:?}"),
        Some((end, _)) => format!("{:?}..", &word[..end]),
    }
}

/// Takes a value for a name that may be given once.
pub fn once<T>(name: &str, place: &mut Option<T>, value: T) -> Result<(), Fault> {
    match place.replace(value) {
        None => Ok(()),
        Some(_) => fault(format!("{name} is given twice")),
    }
}

/// A number that its field can hold.
pub fn number<T: TryFrom<u64>>(name: &str, word: Option<&str>) -> Result<T, Fault> {
    let last = (1u64 << (8 * size_of::<T>())) - 1;
    let Some(word) = word else { return fault(format!("{name} needs a number, 0 to {last}")) };
    let digits = word.bytes().all(|byte| byte.is_ascii_digit());
    let value = digits.then(|| word.parse().ok()).flatten().and_then(|value: u64| T::try_from(value).ok());
    value.map_or_else(|| fault(format!("{name} is a number from 0 to {last}, and here is {}", shown(word))), Ok)
}

/// The bytes of up to sixteen readings, low byte first; missing ones are 0.
pub fn readings<'a>(words: impl Iterator<Item = &'a str>) -> Result<[u8; 32], Fault> {
    let mut signature = [0; 32];
    let mut many = 0;
    for word in words {
        if many == 16 {
            return fault(format!("there are sixteen readings, and a seventeenth is here: {}", shown(word)));
        }
        let reading: u16 = number(&format!("reading {many}"), Some(word))?;
        signature[2 * many..2 * many + 2].copy_from_slice(&reading.to_le_bytes());
        many += 1;
    }
    if many == 0 {
        return fault("readings needs a number at least");
    }
    Ok(signature)
}

/// The bytes of a mask in hexadecimal; missing ones are 0.
pub fn mask<'a>(words: impl Iterator<Item = &'a str>) -> Result<[u8; 32], Fault> {
    let digits: String = words.collect();
    if let Some(other) = digits.chars().find(|digit| !digit.is_ascii_hexdigit()) {
        return fault(format!("a mask has hexadecimal digits, and here is {other:?}"));
    }
    if digits.is_empty() || digits.len() % 2 == 1 || digits.len() > 64 {
        return fault(format!(
            "a mask has two digits for a byte and 1 to 32 bytes, and here are {} digits",
            digits.len()
        ));
    }
    let mut signature = [0; 32];
    for (byte, pair) in signature.iter_mut().zip(digits.as_bytes().chunks(2)) {
        let digit = |at: usize| (pair[at] as char).to_digit(16).unwrap_or(0) as u8;
        *byte = 16 * digit(0) + digit(1);
    }
    Ok(signature)
}
