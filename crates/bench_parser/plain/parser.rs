// The parser and its steps over tokens, in plain Rust.

use crate::lexer::{lex, Fault, Kind, Sign, Span, Token, Word};
use crate::tree::{ClassFile, Name};

pub struct Parser<'t, 'a> {
    pub tokens: &'t [Token<'a>],
    pub at: usize,
}

pub type Parsed<T> = Result<T, Fault>;

impl<'t, 'a> Parser<'t, 'a> {
    pub fn kind(&self, ahead: usize) -> Option<Kind<'a>> {
        self.tokens.get(self.at + ahead).map(|token| token.kind)
    }

    pub fn place(&self) -> usize {
        match self.tokens.get(self.at) {
            Some(token) => token.span.start,
            None => self.tokens.last().map_or(0, |token| token.span.end),
        }
    }

    pub fn syntax<T>(&self) -> Parsed<T> {
        Err(Fault::Syntax(self.place()))
    }

    pub fn deep<T>(&self) -> Parsed<T> {
        Err(Fault::TooDeep(self.place()))
    }

    pub fn span(&self, start: usize) -> Span {
        Span {
            start,
            end: self.at.checked_sub(1).map_or(0, |i| self.tokens[i].span.end),
        }
    }

    pub fn is(&self, sign: Sign) -> bool {
        self.kind(0) == Some(Kind::Sign(sign))
    }

    pub fn takes(&mut self, sign: Sign) -> bool {
        let found = self.is(sign);
        self.at += usize::from(found);
        found
    }

    pub fn takes_word(&mut self, word: Word) -> bool {
        let found = self.kind(0) == Some(Kind::Word(word));
        self.at += usize::from(found);
        found
    }

    pub fn expect(&mut self, sign: Sign) -> Parsed<()> {
        if self.takes(sign) {
            Ok(())
        } else {
            self.syntax()
        }
    }

    pub fn expect_word(&mut self, word: Word) -> Parsed<()> {
        if self.takes_word(word) {
            Ok(())
        } else {
            self.syntax()
        }
    }

    pub fn name(&mut self) -> Parsed<Name> {
        match self.tokens.get(self.at) {
            Some(Token {
                kind: Kind::Name(text),
                span,
            }) => {
                self.at += 1;
                Ok(Name {
                    text: text.to_string(),
                    span: *span,
                })
            }
            _ => self.syntax(),
        }
    }
}

pub fn parse_text(text: &str) -> Parsed<ClassFile> {
    let tokens = lex(text)?;
    Parser { tokens: &tokens, at: 0 }.file()
}
