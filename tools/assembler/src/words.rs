//! The words and signs of one line, taken from its front.

/// A word is a run of letters and digits; `:=` and each other sign stand alone. A `#` ends the line.
pub fn split(line: &str) -> Vec<String> {
    let line = line.split('#').next().unwrap_or("");
    let mut words: Vec<String> = Vec::new();
    let mut in_word = false;
    for letter in line.chars() {
        let goes_on = in_word && letter.is_alphanumeric();
        if letter == '=' && line_ends_in_colon(&words, in_word) {
            // completes `:=`
            words.pop();
            words.push(":=".to_string());
        } else if goes_on {
            if let Some(word) = words.last_mut() {
                word.push(letter);
            }
        } else if !letter.is_whitespace() {
            words.push(letter.to_string());
        }
        in_word = letter.is_alphanumeric();
    }
    words
}

fn line_ends_in_colon(words: &[String], in_word: bool) -> bool {
    !in_word && words.last().is_some_and(|word| word == ":")
}

/// The words of a line that are left.
pub struct Words<'a> {
    words: &'a [String],
}

impl<'a> Words<'a> {
    pub fn new(words: &'a [String]) -> Self {
        Words { words }
    }

    pub fn peek(&self, ahead: usize) -> &'a str {
        self.words.get(ahead).map_or("", String::as_str)
    }

    pub fn next(&mut self) -> &'a str {
        let word = self.peek(0);
        self.words = self.words.get(1..).unwrap_or(&[]);
        word
    }

    /// The next word is this one.
    pub fn expect(&mut self, wanted: &str) -> Result<(), String> {
        match self.next() {
            word if word == wanted => Ok(()),
            "" => Err(format!("the line ends where `{wanted}` is wanted")),
            word => Err(format!("`{word}` stands where `{wanted}` is wanted")),
        }
    }

    /// Nothing is left.
    pub fn finish(&mut self) -> Result<(), String> {
        match self.next() {
            "" => Ok(()),
            word => Err(format!("`{word}` stands where the line ends")),
        }
    }

    /// A number from `least` to `most`; `what` says what it is.
    pub fn number(&mut self, what: &str, least: u64, most: u64) -> Result<u64, String> {
        let word = self.next();
        if word.is_empty() {
            return Err(format!("the line ends where a number is wanted: {what}"));
        }
        if !word.bytes().all(|byte| byte.is_ascii_digit()) {
            return Err(format!("`{word}` stands where a number is wanted: {what}"));
        }
        match word.parse() {
            Ok(number) if least <= number && number <= most => Ok(number),
            _ => Err(format!("{what} {word}: it is {least} to {most}")),
        }
    }

    /// A register, R0 to R3.
    pub fn register(&mut self) -> Result<u8, String> {
        let word = self.next();
        match word {
            "R0" => Ok(0),
            "R1" => Ok(1),
            "R2" => Ok(2),
            "R3" => Ok(3),
            "" => Err("the line ends where a register is wanted".to_string()),
            _ => Err(format!("register {word}: registers are R0 to R3")),
        }
    }
}
