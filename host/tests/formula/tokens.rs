//! The tokens of a formula: words, numbers and signs.

#[derive(Clone, Debug, PartialEq, Eq)]
pub enum Token {
    Word(String),
    Number(usize),
    Sign(&'static str),
}

/// The signs, a longer one before what it begins with.
const SIGNS: [&str; 20] =
    ["<=>", "<=", ">=", "~=", "=>", "<", ">", "~", "=", "&", "|", "\\", "+", "-", "(", ")", "{", "}", ",", ":"];

/// The tokens of a text. A formula about a row alone has no names with `'`, so that is no sign either.
pub fn tokens(text: &str) -> Vec<Token> {
    let mut tokens = Vec::new();
    let mut rest = text.trim_start();
    while let Some(first) = rest.chars().next() {
        let in_word = |sign: char| sign.is_ascii_alphanumeric() || sign == '_';
        let length = rest.find(|sign| !in_word(sign)).unwrap_or(rest.len());
        let (token, length) = match &rest[..length] {
            "" => {
                let sign = SIGNS.iter().find(|sign| rest.starts_with(**sign));
                let sign = *sign.unwrap_or_else(|| panic!("no formula has this: {rest}"));
                (Token::Sign(sign), sign.len())
            }
            word if first.is_ascii_digit() => (Token::Number(word.parse().unwrap()), length),
            word => (Token::Word(word.to_string()), length),
        };
        tokens.push(token);
        rest = rest[length..].trim_start();
    }
    tokens
}
