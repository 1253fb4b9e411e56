//! A line of a script: words, and texts in quotation marks.

/// The most words of a line. A line has at most `TEXTS` texts.
const WORDS: usize = 10;

const TEXTS: usize = 3;

/// The words and the texts of a line, each in their order, and how many there are. The others are empty.
#[derive(Clone, Copy)]
pub struct Line<'a> {
    words: [&'a str; WORDS],
    texts: [&'a str; TEXTS],
    pub words_len: usize,
    pub texts_len: usize,
}

impl<'a> Line<'a> {
    /// Splits the line into its parts. Every second part is between quotation marks.
    pub fn new(line: &'a str) -> Self {
        let mut parts = Line { words: [""; WORDS], texts: [""; TEXTS], words_len: 0, texts_len: 0 };
        let mut quoted = false;
        for part in line.split('"') {
            if quoted {
                parts.push_text(part);
            } else {
                parts.push_words(part);
            }
            quoted = !quoted;
        }
        parts
    }

    fn push_text(&mut self, text: &'a str) {
        let at = self.texts_len;
        if at < TEXTS {
            self.texts[at] = text;
        }
        self.texts_len = self.texts_len.saturating_add(1);
    }

    fn push_words(&mut self, part: &'a str) {
        for word in part.split_ascii_whitespace() {
            let at = self.words_len;
            if at < WORDS {
                self.words[at] = word;
            }
            self.words_len = self.words_len.saturating_add(1);
        }
    }

    /// Returns the word with this index, or an empty one.
    pub fn word(&self, i: usize) -> &'a str {
        if i < WORDS { self.words[i] } else { "" }
    }

    /// Returns the text with this index, or an empty one.
    pub fn text(&self, i: usize) -> &'a str {
        if i < TEXTS { self.texts[i] } else { "" }
    }

    /// Returns whether this is one of the words.
    pub fn has(&self, word: &str) -> bool {
        for other in self.words {
            if other == word {
                return true;
            }
        }
        false
    }

    /// Returns the word with this index as a number. A word that is no number gives the greatest number.
    pub fn number(&self, i: usize) -> usize {
        match self.word(i).parse::<usize>() {
            Ok(number) => number,
            Err(_) => usize::MAX,
        }
    }
}
