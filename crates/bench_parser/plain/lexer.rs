// Tokens, in plain Rust.

#[derive(Clone, Copy, Debug, PartialEq)]
pub enum Fault {
    TooLong,
    BadByte(usize),
    OpenComment(usize),
    BadNumber(usize),
    Syntax(usize),
    TooDeep(usize),
}

#[derive(Clone, Copy, Debug, PartialEq)]
pub struct Span {
    pub start: usize,
    pub end: usize,
}

#[derive(Clone, Copy, Debug, PartialEq)]
pub enum Word {
    Package,
    Import,
    Class,
    Public,
    Protected,
    Private,
    Final,
    Volatile,
    Int,
    Boolean,
    Void,
    If,
    Else,
    While,
    Break,
    Continue,
    Return,
    Try,
    Finally,
    New,
    True,
    False,
    Null,
    This,
    Other,
}

#[derive(Clone, Copy, Debug, PartialEq)]
pub enum Sign {
    OpenParen,
    CloseParen,
    OpenBrace,
    CloseBrace,
    OpenBracket,
    CloseBracket,
    Semicolon,
    Comma,
    Dot,
    At,
    Assign,
    Colon,
    Not,
    Less,
    Greater,
    LessEqual,
    GreaterEqual,
    Equal,
    NotEqual,
    And,
    Or,
    Plus,
    Minus,
    Star,
    Slash,
    Percent,
    Other,
}

#[derive(Clone, Copy, Debug, PartialEq)]
pub enum Kind<'a> {
    Name(&'a str),
    Number(&'a str),
    Word(Word),
    Sign(Sign),
}

#[derive(Clone, Copy)]
pub struct Token<'a> {
    pub kind: Kind<'a>,
    pub span: Span,
}

fn is_part(b: u8) -> bool {
    b.is_ascii_alphanumeric() || b == b'_' || b == b'$'
}

fn word_of(text: &str) -> Kind<'_> {
    Kind::Word(match text {
        "package" => Word::Package,
        "import" => Word::Import,
        "class" => Word::Class,
        "public" => Word::Public,
        "protected" => Word::Protected,
        "private" => Word::Private,
        "final" => Word::Final,
        "volatile" => Word::Volatile,
        "int" => Word::Int,
        "boolean" => Word::Boolean,
        "void" => Word::Void,
        "if" => Word::If,
        "else" => Word::Else,
        "while" => Word::While,
        "break" => Word::Break,
        "continue" => Word::Continue,
        "return" => Word::Return,
        "try" => Word::Try,
        "finally" => Word::Finally,
        "new" => Word::New,
        "true" => Word::True,
        "false" => Word::False,
        "null" => Word::Null,
        "this" => Word::This,
        "abstract" | "assert" | "byte" | "case" | "catch" | "char" | "const" | "default" | "do" | "double" | "enum"
        | "extends" | "float" | "for" | "goto" | "implements" | "instanceof" | "interface" | "long" | "native"
        | "short" | "static" | "strictfp" | "super" | "switch" | "synchronized" | "throw" | "throws" | "transient" => {
            Word::Other
        }
        _ => return Kind::Name(text),
    })
}

// A sign of one byte.
fn short_sign(b: u8) -> Option<Sign> {
    Some(match b {
        b'(' => Sign::OpenParen,
        b')' => Sign::CloseParen,
        b'{' => Sign::OpenBrace,
        b'}' => Sign::CloseBrace,
        b'[' => Sign::OpenBracket,
        b']' => Sign::CloseBracket,
        b';' => Sign::Semicolon,
        b',' => Sign::Comma,
        b'.' => Sign::Dot,
        b'@' => Sign::At,
        b'=' => Sign::Assign,
        b':' => Sign::Colon,
        b'!' => Sign::Not,
        b'<' => Sign::Less,
        b'>' => Sign::Greater,
        b'+' => Sign::Plus,
        b'-' => Sign::Minus,
        b'*' => Sign::Star,
        b'/' => Sign::Slash,
        b'%' => Sign::Percent,
        b'~' | b'?' | b'&' | b'|' | b'^' => Sign::Other,
        _ => return None,
    })
}

// The longest sign at the front, and how many bytes it has.
fn sign_of(rest: &[u8]) -> Option<(Sign, usize)> {
    let at = |i: usize| rest.get(i).copied().unwrap_or(0);
    match &[at(0), at(1), at(2), at(3)] {
        b">>>=" => Some((Sign::Other, 4)),
        [b'>', b'>', b'>', _] | [b'<', b'<', b'=', _] | [b'>', b'>', b'=', _] | [b'.', b'.', b'.', _] => {
            Some((Sign::Other, 3))
        }
        [b'=', b'=', ..] => Some((Sign::Equal, 2)),
        [b'<', b'=', ..] => Some((Sign::LessEqual, 2)),
        [b'>', b'=', ..] => Some((Sign::GreaterEqual, 2)),
        [b'!', b'=', ..] => Some((Sign::NotEqual, 2)),
        [b'&', b'&', ..] => Some((Sign::And, 2)),
        [b'|', b'|', ..] => Some((Sign::Or, 2)),
        [b'+', b'+', ..] | [b'-', b'-' | b'>', ..] | [b'<', b'<', ..] | [b'>', b'>', ..] | [b':', b':', ..] => {
            Some((Sign::Other, 2))
        }
        [b'+' | b'-' | b'*' | b'/' | b'&' | b'|' | b'^' | b'%', b'=', ..] => Some((Sign::Other, 2)),
        [b, ..] => Some((short_sign(*b)?, 1)),
    }
}

fn is_number(text: &str) -> bool {
    let bytes = text.as_bytes();
    if !bytes.iter().all(u8::is_ascii_digit) || (bytes.len() > 1 && bytes[0] == b'0') {
        return false;
    }
    matches!(text.parse::<u64>(), Ok(n) if n <= 2147483648)
}

// Where the gap ends that begins here, if one does.
fn gap_end(text: &str, at: usize) -> Result<Option<usize>, Fault> {
    let bytes = text.as_bytes();
    match (bytes[at], bytes.get(at + 1)) {
        (b' ' | b'\t' | 12 | b'\r' | b'\n', _) => Ok(Some(at + 1)),
        (b'/', Some(b'/')) => {
            let line = bytes[at..].iter().position(|b| matches!(b, b'\r' | b'\n'));
            Ok(Some(line.map_or(bytes.len(), |n| at + n)))
        }
        (b'/', Some(b'*')) => match text[at + 2..].find("*/") {
            Some(n) => Ok(Some(at + n + 4)),
            None => Err(Fault::OpenComment(at)),
        },
        _ => Ok(None),
    }
}

// The token that begins here, and where it ends.
fn token_at(text: &str, start: usize) -> Result<(Kind<'_>, usize), Fault> {
    let bytes = text.as_bytes();
    if !is_part(bytes[start]) {
        let (sign, n) = sign_of(&bytes[start..]).ok_or(Fault::BadByte(start))?;
        return Ok((Kind::Sign(sign), start + n));
    }
    let mut end = start;
    while end < bytes.len() && is_part(bytes[end]) {
        end += 1;
    }
    let token = &text[start..end];
    if !bytes[start].is_ascii_digit() {
        Ok((word_of(token), end))
    } else if is_number(token) {
        Ok((Kind::Number(token), end))
    } else {
        Err(Fault::BadNumber(start))
    }
}

pub fn lex(text: &str) -> Result<Vec<Token<'_>>, Fault> {
    if text.len() > 262144 {
        return Err(Fault::TooLong);
    }
    let mut tokens = Vec::new();
    let mut start = 0;
    while start < text.len() {
        if let Some(end) = gap_end(text, start)? {
            start = end;
            continue;
        }
        let (kind, end) = token_at(text, start)?;
        tokens.push(Token {
            kind,
            span: Span { start, end },
        });
        start = end;
    }
    Ok(tokens)
}
