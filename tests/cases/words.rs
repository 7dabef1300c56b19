//! The words of a call, taken one by one: words in their order, and behind them options `KEY=VALUE` and flags in any order.

use crate::hexadecimal::unhex;
use std::str::FromStr;

pub struct Words<'a> {
    left: Vec<&'a str>,
}

impl<'a> Words<'a> {
    pub fn of(text: &'a str) -> Words<'a> {
        Words { left: text.split_whitespace().collect() }
    }

    /// The next word; the error says what it should have been.
    pub fn word(&mut self, what: &str) -> Result<&'a str, String> {
        if self.left.is_empty() {
            return Err(format!("{what} is missing"));
        }
        Ok(self.left.remove(0))
    }

    pub fn number<T: FromStr>(&mut self, what: &str) -> Result<T, String> {
        number(self.word(what)?)
    }

    /// The next word, which is one byte.
    pub fn byte(&mut self, what: &str) -> Result<u8, String> {
        match bytes(self.word(what)?)?[..] {
            [byte] => Ok(byte),
            _ => Err(format!("{what} is one byte")),
        }
    }

    /// The bytes of all words that are left.
    pub fn all_bytes(&mut self) -> Result<Vec<u8>, String> {
        Ok(self.rest().into_iter().map(bytes).collect::<Result<Vec<_>, _>>()?.concat())
    }

    /// All words that are left.
    pub fn rest(&mut self) -> Vec<&'a str> {
        std::mem::take(&mut self.left)
    }

    /// The value of an option, where it is given.
    pub fn option(&mut self, key: &str) -> Option<&'a str> {
        let value = |word: &'a str| word.strip_prefix(key).and_then(|word| word.strip_prefix('='));
        let place = self.left.iter().position(|word| value(word).is_some())?;
        value(self.left.remove(place))
    }

    /// The number of an option, or else this one.
    pub fn number_or<T: FromStr>(&mut self, key: &str, otherwise: T) -> Result<T, String> {
        self.option(key).map_or(Ok(otherwise), number)
    }

    /// The bytes of an option, where it is given.
    pub fn bytes(&mut self, key: &str) -> Result<Option<Vec<u8>>, String> {
        self.option(key).map(bytes).transpose()
    }

    /// So many bytes of an option, or else these.
    pub fn array_or<const N: usize>(&mut self, key: &str, otherwise: [u8; N]) -> Result<[u8; N], String> {
        let Some(given) = self.bytes(key)? else { return Ok(otherwise) };
        given.try_into().map_err(|_| format!("{key} takes {N} bytes"))
    }

    pub fn flag(&mut self, flag: &str) -> bool {
        let place = self.left.iter().position(|&word| word == flag);
        place.map(|place| self.left.remove(place)).is_some()
    }

    /// No word may be left.
    pub fn end(self) -> Result<(), String> {
        match self.left.first() {
            None => Ok(()),
            Some(word) => Err(format!("\"{word}\" is not understood here")),
        }
    }
}

pub fn number<T: FromStr>(text: &str) -> Result<T, String> {
    text.parse().map_err(|_| format!("\"{text}\" is no number that fits here"))
}

/// Two numbers with two dots between them.
pub fn range<T: FromStr>(text: &str) -> Result<(T, T), String> {
    let (from, to) = text.split_once("..").ok_or(format!("\"{text}\" is not FROM..TO"))?;
    Ok((number(from)?, number(to)?))
}

/// Other bytes at a place, counted from 0: `PLACE:BYTES`.
pub fn overlay(target: &mut [u8], change: &str) -> Result<(), String> {
    let (place, given) = change.split_once(':').ok_or("at takes PLACE:BYTES")?;
    put(target, number(place)?, &bytes(given)?)
}

/// These bytes in the place of those that stand there.
pub fn put(target: &mut [u8], place: usize, given: &[u8]) -> Result<(), String> {
    let slot = target.get_mut(place..place + given.len()).ok_or("the bytes end before that place")?;
    slot.copy_from_slice(given);
    Ok(())
}

/// Bytes: pieces with `+` between them, each pairs of digits or `COUNT*PAIRS`; a dash for none.
pub fn bytes(text: &str) -> Result<Vec<u8>, String> {
    Ok(text.split('+').map(piece).collect::<Result<Vec<_>, _>>()?.concat())
}

fn piece(text: &str) -> Result<Vec<u8>, String> {
    let (count, pairs) = match text.split_once('*') {
        Some((count, pairs)) => (number(count)?, pairs),
        None => (1, text),
    };
    match pairs {
        "-" => Ok(vec![]),
        _ => Ok(unhex(pairs).ok_or(format!("\"{text}\" is not in pairs of hexadecimal digits"))?.repeat(count)),
    }
}
