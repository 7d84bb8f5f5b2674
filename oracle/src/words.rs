//! The words of a record: doubles as the 16 hex digits of their bits, counts
//! and codes as plain hex numbers.

use std::fmt;

/// Every NaN is written as this one; payloads are not compared.
const NAN_BITS: u64 = 0x7ff8_0000_0000_0000;

#[derive(Clone, Copy, Debug)]
pub enum Word {
    Count(u32),
    /// A count of up to 64 bits.
    Long(u64),
    Double(f64),
    /// In the place of an answer: the published text panics.
    Panicked,
}

impl Word {
    /// None where the word is no number.
    fn bits(&self) -> Option<u64> {
        match *self {
            Word::Count(count) => Some(count.into()),
            Word::Long(count) => Some(count),
            Word::Double(x) if x.is_nan() => Some(NAN_BITS),
            Word::Double(x) => Some(x.to_bits()),
            Word::Panicked => None,
        }
    }

    /// The word as a person reads it.
    pub fn decimal(&self) -> String {
        match self {
            Word::Count(count) => count.to_string(),
            Word::Long(count) => count.to_string(),
            Word::Double(x) => format!("{x:?}"),
            Word::Panicked => self.to_string(),
        }
    }
}

impl fmt::Display for Word {
    fn fmt(&self, out: &mut fmt::Formatter<'_>) -> fmt::Result {
        match (self, self.bits()) {
            (Word::Double(_), Some(bits)) => write!(out, "{bits:016x}"),
            (_, Some(bits)) => write!(out, "{bits:x}"),
            (_, None) => write!(out, "panicked"),
        }
    }
}

/// Words are equal where they are written alike.
impl PartialEq for Word {
    fn eq(&self, other: &Word) -> bool {
        self.bits() == other.bits()
    }
}

pub fn doubles(numbers: &[f64]) -> Vec<Word> {
    numbers.iter().map(|&x| Word::Double(x)).collect()
}

/// How many numbers there are, then the numbers.
pub fn counted(numbers: &[f64]) -> Vec<Word> {
    [vec![Word::Count(numbers.len() as u32)], doubles(numbers)].concat()
}

/// How many indices there are, then the indices.
pub fn counted_indices(indices: &[u32]) -> Vec<Word> {
    let count = Word::Count(indices.len() as u32);
    let indices = indices.iter().map(|&index| Word::Count(index));
    [count].into_iter().chain(indices).collect()
}

pub fn line(words: &[Word]) -> String {
    let words: Vec<String> = words.iter().map(Word::to_string).collect();
    words.join(" ")
}

/// Takes the words of one line in turn.
pub struct Reader<'a> {
    words: std::str::Split<'a, char>,
}

impl<'a> Reader<'a> {
    pub fn new(line: &'a str) -> Self {
        Reader {
            words: line.split(' '),
        }
    }

    fn word(&mut self) -> Result<&'a str, String> {
        self.words.next().ok_or("the line ends too early".into())
    }

    /// A number of up to eight digits in its shortest form.
    pub fn count(&mut self) -> Result<u32, String> {
        let word = self.word()?;
        let count = u32::from_str_radix(word, 16).ok();
        count
            .filter(|count| format!("{count:x}") == word)
            .ok_or(format!("{word:?} is not a count"))
    }

    /// The same with up to sixteen digits.
    pub fn long(&mut self) -> Result<u64, String> {
        let word = self.word()?;
        let count = u64::from_str_radix(word, 16).ok();
        count
            .filter(|count| format!("{count:x}") == word)
            .ok_or(format!("{word:?} is not a count of up to 64 bits"))
    }

    pub fn double(&mut self) -> Result<f64, String> {
        let word = self.word()?;
        double_of_bits(word).ok_or(format!("{word:?} is not a double of 16 hex digits"))
    }

    pub fn doubles(&mut self, count: u32) -> Result<Vec<f64>, String> {
        (0..count).map(|_| self.double()).collect()
    }

    pub fn counted(&mut self) -> Result<Vec<f64>, String> {
        let count = self.count()?;
        self.doubles(count)
    }

    pub fn counted_indices(&mut self) -> Result<Vec<u32>, String> {
        let count = self.count()?;
        (0..count).map(|_| self.count()).collect()
    }

    pub fn end(&mut self) -> Result<(), String> {
        match self.words.next() {
            None => Ok(()),
            Some(word) => Err(format!("{word:?} is one word too many")),
        }
    }
}

fn double_of_bits(word: &str) -> Option<f64> {
    let digits = word.bytes().all(|b| matches!(b, b'0'..=b'9' | b'a'..=b'f'));
    if word.len() != 16 || !digits {
        return None;
    }
    u64::from_str_radix(word, 16).ok().map(f64::from_bits)
}

/// A number of the command line: 16 hex digits, or else decimal.
pub fn number(word: &str) -> Result<f64, String> {
    double_of_bits(word)
        .or_else(|| word.parse().ok())
        .ok_or(format!("{word:?} is not a number"))
}
