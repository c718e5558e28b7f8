//! A line of text and the record that it says, both ways, by the table of forms.

use super::forms::{form, Form, Part, FORMS};
use super::records::Record;
use crate::cell::{append_bytes, append_spaced, byte, number, shown};
use crate::words::{words, Word, Words};
use std::iter::Peekable;

/// What is amiss with a line, and at which column.
pub type Amiss = (usize, String);

/// The record that a line says: its kind and its body; none of a line without words. Or all that is amiss: behind a value
/// that is none the line is read on, behind a word that does not fit it can't be.
pub fn read(line: &str) -> Result<Option<(u16, Vec<u8>)>, Vec<Amiss>> {
    let mut words = words(line).peekable();
    let Some(first) = words.next() else {
        return Ok(None);
    };
    let Some(form) = FORMS.iter().find(|form| form.word == first.text) else {
        let told = format!(
            "{} is no record: expected {}",
            shown(first.text),
            all_words()
        );
        return Err(vec![(first.column, told)]);
    };
    let end = 1 + line.trim_end().chars().count();
    let mut reader = Reader {
        form,
        words,
        end,
        body: Vec::new(),
        wrong: Vec::new(),
    };
    if let Err(told) = reader.read() {
        reader.wrong.push(told);
    }
    match reader.wrong.is_empty() {
        true => Ok(Some((form.kind, reader.body))),
        false => Err(reader.wrong),
    }
}

/// A line that is being read.
struct Reader<'a> {
    form: &'static Form,
    words: Peekable<Words<'a>>,
    /// The column behind the line's last word.
    end: usize,
    body: Vec<u8>,
    /// Values that are none.
    wrong: Vec<Amiss>,
}

impl<'a> Reader<'a> {
    fn read(&mut self) -> Result<(), Amiss> {
        self.form
            .parts
            .iter()
            .try_for_each(|part| self.part(part))?;
        self.words
            .next()
            .map_or(Ok(()), |word| Err(self.unfit(word)))
    }

    fn part(&mut self, part: &Part) -> Result<(), Amiss> {
        match *part {
            Part::Two(_) => {
                let word = self.next()?;
                self.two(word.column, word.text);
            }
            Part::One(_) => {
                let word = self.next()?;
                let said = self.good(word.column, byte(word.text));
                self.body.extend(said);
            }
            Part::Named(name) => {
                let word = self.next()?;
                let behind = word.text.strip_prefix(name);
                match behind.and_then(|behind| behind.strip_prefix('=')) {
                    Some(value) => self.two(word.column + name.len() + 1, value),
                    None => return Err(self.unfit(word)),
                }
            }
            Part::Word(said) => {
                let word = self.next()?;
                if word.text != said {
                    return Err(self.unfit(word));
                }
            }
            Part::Either(zero, one) => {
                let word = self.next()?;
                let place = [zero, one].iter().position(|said| *said == word.text);
                match place {
                    Some(place) => self.body.push(u8::from(place == 1)),
                    None => return Err(self.unfit(word)),
                }
            }
            Part::Flag(said) => {
                let there = self.words.next_if(|word| word.text == said).is_some();
                self.body.push(u8::from(there));
            }
            Part::Bytes(said) => match self.words.next_if(|word| word.text == said) {
                Some(word) => self.bytes(word)?,
                None => self.body.push(0),
            },
        }
        Ok(())
    }

    fn next(&mut self) -> Result<Word<'a>, Amiss> {
        let (form, end) = (self.form, self.end);
        let told = || {
            (
                end,
                format!("the line ends here: expected {}", form.usage()),
            )
        };
        self.words.next().ok_or_else(told)
    }

    fn unfit(&self, word: Word) -> Amiss {
        let (text, usage) = (shown(word.text), self.form.usage());
        (
            word.column,
            format!("{text} does not fit: expected {usage}"),
        )
    }

    /// What a value says; or nothing, and what is amiss with it is kept.
    fn good<T>(&mut self, column: usize, said: Result<T, String>) -> Option<T> {
        said.map_err(|told| self.wrong.push((column, told))).ok()
    }

    fn two(&mut self, column: usize, text: &str) {
        if let Some(said) = self.good(column, number(text)) {
            self.body.extend_from_slice(&said.to_le_bytes());
        }
    }

    /// All words that are left, as bytes behind their number. `name` is the word before them.
    fn bytes(&mut self, name: Word) -> Result<(), Amiss> {
        if self.words.peek().is_none() {
            let told = format!("the line ends here: expected bytes behind {}", name.text);
            return Err((self.end, told));
        }
        let mut bytes = Vec::new();
        for word in self.words.by_ref() {
            if let Err(told) = append_bytes(word.text, &mut bytes) {
                let column = word.column + told.column() - 1;
                self.wrong.push((column, told.to_string()));
            }
        }
        match u8::try_from(bytes.len()) {
            Ok(count) => {
                self.body.push(count);
                self.body.append(&mut bytes);
            }
            Err(_) => {
                let (count, name, column) = (bytes.len(), name.text, name.column);
                let told = format!("{count} bytes: expected at most 255 behind {name}");
                self.wrong.push((column, told));
            }
        }
        Ok(())
    }
}

/// The first words of lines, as a sentence has them.
fn all_words() -> String {
    let mut all: Vec<&str> = FORMS.iter().map(|form| form.word).collect();
    let last = all.pop().unwrap_or_default();
    format!("{} or {last}", all.join(", "))
}

impl Form {
    /// How a line of this form is written.
    pub fn usage(&self) -> String {
        let mut usage = self.word.to_string();
        for part in self.parts {
            usage.push(' ');
            usage.push_str(&match *part {
                Part::Two(name) | Part::One(name) | Part::Word(name) => name.to_string(),
                Part::Named(name) => format!("{name}=NUMBER"),
                Part::Either(zero, one) => format!("{zero}|{one}"),
                Part::Flag(name) => format!("[{name}]"),
                Part::Bytes(name) => format!("[{name} HEX..]"),
            });
        }
        usage
    }
}

/// Appends the line that says a record. Nothing where no line does: of a kind that has no form, of a body that is longer or
/// shorter than its form, or where a byte stands for no word.
pub fn append_line(record: &Record, text: &mut String) -> Option<()> {
    let form = form(record.kind)?;
    let mut body = Body(record.body);
    text.push_str(form.word);
    for part in form.parts {
        match *part {
            Part::Two(_) => text.push_str(&format!(" {}", body.two()?)),
            Part::One(_) => text.push_str(&format!(" {}", body.one()?)),
            Part::Named(name) => text.push_str(&format!(" {name}={}", body.two()?)),
            Part::Word(said) => text.push_str(&format!(" {said}")),
            Part::Either(zero, one) => {
                let said = if body.flag()? { one } else { zero };
                text.push_str(&format!(" {said}"));
            }
            Part::Flag(said) => {
                if body.flag()? {
                    text.push_str(&format!(" {said}"));
                }
            }
            Part::Bytes(said) => {
                let count = usize::from(body.one()?);
                let bytes = body.take(count)?;
                if count > 0 {
                    text.push_str(&format!(" {said}"));
                    append_spaced(bytes, text);
                }
            }
        }
    }
    text.push('\n');
    body.0.is_empty().then_some(())
}

/// What is left of a body.
struct Body<'a>(&'a [u8]);

impl<'a> Body<'a> {
    fn take(&mut self, count: usize) -> Option<&'a [u8]> {
        let (taken, rest) = self.0.split_at_checked(count)?;
        self.0 = rest;
        Some(taken)
    }

    fn one(&mut self) -> Option<u8> {
        self.take(1)?.first().copied()
    }

    fn two(&mut self) -> Option<u16> {
        let (low, high) = (self.one()?, self.one()?);
        Some(u16::from_le_bytes([low, high]))
    }

    fn flag(&mut self) -> Option<bool> {
        match self.one()? {
            0 => Some(false),
            1 => Some(true),
            _ => None,
        }
    }
}
