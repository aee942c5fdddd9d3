//! The tokens of a line: how they are written, and the lists of them in a range.

/// A number of a line, or what is written in its place.
#[derive(Clone, Copy, Debug, PartialEq, Eq)]
pub enum Token {
    Number(u64),
    /// `?`: a zero count that is not known.
    Unknown,
    /// `-`: nothing found.
    Missing,
}

impl Token {
    fn read(text: &str) -> Token {
        match text.strip_prefix('x') {
            _ if text == "?" => Token::Unknown,
            Some(digits) => Token::Number(u64::from_str_radix(digits, 16).expect("hexadecimal digits")),
            None => Token::Number(text.parse().expect("decimal digits")),
        }
    }
}

impl std::fmt::Display for Token {
    fn fmt(&self, f: &mut std::fmt::Formatter<'_>) -> std::fmt::Result {
        match self {
            Token::Number(number) if *number < 1 << 60 => write!(f, "{number}"),
            Token::Number(number) => write!(f, "x{number:x}"),
            Token::Unknown => write!(f, "?"),
            Token::Missing => write!(f, "-"),
        }
    }
}

/// Returns the values of an argument: `7`, `?`, `0..8`, `0..8+2`, or several of these with commas.
pub fn values(text: &str) -> Vec<Token> {
    text.split(',').flat_map(item).collect()
}

fn item(text: &str) -> Vec<Token> {
    let Some((from, to)) = text.split_once("..") else { return vec![Token::read(text)] };
    let (to, step) = to.split_once('+').unwrap_or((to, "1"));
    match (Token::read(from), Token::read(to)) {
        (Token::Number(from), Token::Number(to)) if from < to => {
            (from..to).step_by(step.parse().expect("a step")).map(Token::Number).collect()
        }
        _ => panic!("no range: {text}"),
    }
}

/// Returns numbers as the text of one argument with these values.
pub fn list(numbers: &[u64]) -> String {
    let texts: Vec<String> = numbers.iter().map(|&number| Token::Number(number).to_string()).collect();
    texts.join(",")
}

/// Returns a number as it is written in a line.
pub fn show(number: u64) -> String {
    Token::Number(number).to_string()
}

/// The checksum of a range and of an output. Each step is a bijection of the sum and of the symbol taken in, so that a change of one
/// symbol changes the sum.
#[derive(Clone, Copy)]
pub struct Checksum(pub u64);

impl Checksum {
    /// Returns the checksum of no symbol.
    pub fn new() -> Self {
        Self(0xcbf2_9ce4_8422_2325)
    }

    /// Takes in one symbol.
    pub fn take(&mut self, symbol: u64) {
        let mut h = self.0.wrapping_add(symbol);
        h ^= h << 13;
        h ^= h >> 7;
        h ^= h << 17;
        self.0 = h;
    }

    /// Takes in how many tokens there are, then the kind and the value of each.
    pub fn take_tokens(&mut self, tokens: &[Token]) {
        self.take(tokens.len() as u64);
        for token in tokens {
            let (kind, value) = match *token {
                Token::Number(number) => (0, number),
                Token::Unknown => (1, 0),
                Token::Missing => (2, 0),
            };
            self.take(kind);
            self.take(value);
        }
    }

    /// Takes in bytes as words, the last one padded with zeros.
    pub fn take_bytes(&mut self, bytes: &[u8]) {
        for part in bytes.chunks(8) {
            let mut word = [0; 8];
            word[..part.len()].copy_from_slice(part);
            self.take(u64::from_le_bytes(word));
        }
    }
}
