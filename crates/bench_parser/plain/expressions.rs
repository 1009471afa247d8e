// Expressions, in plain Rust.

use crate::lexer::{Fault, Kind, Sign, Span, Word};
use crate::parser::{Parsed, Parser};
use crate::tree::Expr;

fn rank(kind: Kind) -> usize {
    match kind {
        Kind::Sign(Sign::Or) => 6,
        Kind::Sign(Sign::And) => 5,
        Kind::Sign(Sign::Equal | Sign::NotEqual) => 4,
        Kind::Sign(Sign::Less | Sign::Greater | Sign::LessEqual | Sign::GreaterEqual) => 3,
        Kind::Sign(Sign::Plus | Sign::Minus) => 2,
        Kind::Sign(Sign::Star | Sign::Slash | Sign::Percent) => 1,
        _ => 0,
    }
}

impl<'t, 'a> Parser<'t, 'a> {
    pub fn term(&mut self, limit: usize) -> Parsed<(Expr, usize)> {
        self.binary(6, limit)
    }

    pub fn binary(&mut self, wanted: usize, limit: usize) -> Parsed<(Expr, usize)> {
        let (mut left, mut height) = self.unary(limit, false)?;
        while let Some(kind @ Kind::Sign(sign)) = self.kind(0) {
            let found = rank(kind);
            if found == 0 || found > wanted {
                break;
            }
            if height >= limit {
                return self.deep();
            }
            self.at += 1;
            let right_at = self.at;
            let (right, h) = self.binary(found - 1, limit)?;
            if h >= limit {
                self.at = right_at;
                return self.deep();
            }
            let span = Span {
                start: left.span().start,
                end: right.span().end,
            };
            left = Expr::Binary(sign, Box::new(left), Box::new(right), span);
            height = height.max(h) + 1;
        }
        Ok((left, height))
    }

    pub fn unary(&mut self, limit: usize, after_minus: bool) -> Parsed<(Expr, usize)> {
        if limit == 0 {
            return self.deep();
        }
        let sign = match self.kind(0) {
            Some(Kind::Sign(sign @ (Sign::Minus | Sign::Not))) => sign,
            _ => return self.post(limit, after_minus),
        };
        let start = self.place();
        self.at += 1;
        let (operand, height) = self.unary(limit - 1, sign == Sign::Minus)?;
        Ok((Expr::Unary(sign, Box::new(operand), self.span(start)), height + 1))
    }

    pub fn post(&mut self, limit: usize, after_minus: bool) -> Parsed<(Expr, usize)> {
        if limit == 0 {
            return self.deep();
        }
        let start = self.place();
        let (mut left, mut height) = self.primary(limit - 1, after_minus)?;
        while self.is(Sign::Dot) || self.is(Sign::OpenBracket) {
            if height >= limit {
                return self.deep();
            }
            if self.takes(Sign::Dot) {
                let name = self.name()?;
                if self.takes(Sign::OpenParen) {
                    let (arguments, h) = self.arguments(limit - 1)?;
                    height = height.max(h);
                    left = Expr::Call(Some(Box::new(left)), name, arguments, self.span(start));
                } else {
                    left = Expr::Field(Box::new(left), name, self.span(start));
                }
            } else {
                if matches!(left, Expr::NewArray(..)) {
                    return self.syntax();
                }
                let (index, h) = self.index(limit - 1)?;
                height = height.max(h);
                left = Expr::Element(Box::new(left), Box::new(index), self.span(start));
            }
            height += 1;
        }
        Ok((left, height))
    }

    pub fn index(&mut self, limit: usize) -> Parsed<(Expr, usize)> {
        self.expect(Sign::OpenBracket)?;
        let index = self.term(limit)?;
        self.expect(Sign::CloseBracket)?;
        Ok(index)
    }

    // behind the opening parenthesis
    pub fn arguments(&mut self, limit: usize) -> Parsed<(Vec<Expr>, usize)> {
        let mut arguments = Vec::new();
        if self.takes(Sign::CloseParen) {
            return Ok((arguments, 0));
        }
        let mut height = 0;
        loop {
            let (argument, h) = self.term(limit)?;
            arguments.push(argument);
            height = height.max(h);
            if self.takes(Sign::CloseParen) {
                return Ok((arguments, height));
            }
            self.expect(Sign::Comma)?;
        }
    }

    pub fn primary(&mut self, limit: usize, after_minus: bool) -> Parsed<(Expr, usize)> {
        let Some(token) = self.tokens.get(self.at).copied() else {
            return self.syntax();
        };
        let start = token.span.start;
        match token.kind {
            Kind::Name(_) => {
                let name = self.name()?;
                if self.takes(Sign::OpenParen) {
                    let (arguments, height) = self.arguments(limit)?;
                    return Ok((Expr::Call(None, name, arguments, self.span(start)), height + 1));
                }
                Ok((Expr::Name(name), 1))
            }
            Kind::Number(text) => {
                if !after_minus && text == "2147483648" {
                    return Err(Fault::BadNumber(start));
                }
                self.at += 1;
                Ok((Expr::Number(text.to_string(), token.span), 1))
            }
            Kind::Word(word @ (Word::True | Word::False | Word::Null | Word::This)) => {
                self.at += 1;
                Ok((Expr::Constant(word, token.span), 1))
            }
            Kind::Word(Word::New) => self.made(limit),
            Kind::Sign(Sign::OpenParen) => {
                self.at += 1;
                let (inner, height) = self.term(limit)?;
                self.expect(Sign::CloseParen)?;
                Ok((Expr::Paren(Box::new(inner), self.span(start)), height + 1))
            }
            _ => self.syntax(),
        }
    }

    pub fn made(&mut self, limit: usize) -> Parsed<(Expr, usize)> {
        let start = self.place();
        self.at += 1;
        if let Some(Kind::Name(text)) = self.kind(0) {
            let name = self.name()?;
            let markable = text == "AtomicMarkableReference" && self.is(Sign::Less);
            let class = if markable { self.markable_class()? } else { name };
            self.expect(Sign::OpenParen)?;
            let (arguments, height) = self.arguments(limit)?;
            let span = self.span(start);
            let made = if markable {
                Expr::NewMarkable(class, arguments, span)
            } else {
                Expr::New(class, arguments, span)
            };
            return Ok((made, height + 1));
        }
        self.expect_word(Word::Boolean)?;
        let (length, height) = self.index(limit)?;
        Ok((Expr::NewArray(Box::new(length), self.span(start)), height + 1))
    }
}
