// Statements and blocks, in plain Rust.

use crate::lexer::{Kind, Sign, Word};
use crate::parser::{Parsed, Parser};
use crate::tree::{Block, Expr, Item, Name, Statement};

impl<'t, 'a> Parser<'t, 'a> {
    pub fn block(&mut self, limit: usize) -> Parsed<(Block, usize)> {
        if limit == 0 {
            return self.deep();
        }
        let start = self.place();
        self.expect(Sign::OpenBrace)?;
        let mut items = Vec::new();
        let mut height = 0;
        while !self.takes(Sign::CloseBrace) {
            let (item, h) = self.item(limit - 1)?;
            items.push(item);
            height = height.max(h);
        }
        let span = self.span(start);
        Ok((Block { items, span }, height + 1))
    }

    pub fn starts_declaration(&self) -> bool {
        self.starts_modifier()
            || matches!(self.kind(0), Some(Kind::Word(Word::Int | Word::Boolean)))
            || (matches!(self.kind(0), Some(Kind::Name(_)))
                && matches!(self.kind(1), Some(Kind::Name(_) | Kind::Sign(Sign::Less))))
    }

    pub fn item(&mut self, limit: usize) -> Parsed<(Item, usize)> {
        if self.starts_declaration() {
            if limit == 0 {
                return self.deep();
            }
            let start = self.place();
            let modifiers = self.modifiers()?;
            let type_name = self.type_name()?;
            let (declaration, height) = self.declarators(start, modifiers, type_name, limit - 1)?;
            Ok((Item::Declaration(declaration), height + 1))
        } else {
            let (statement, height) = self.statement(limit)?;
            Ok((Item::Statement(statement), height))
        }
    }

    pub fn condition(&mut self, limit: usize) -> Parsed<(Expr, usize)> {
        self.expect(Sign::OpenParen)?;
        let condition = self.term(limit)?;
        self.expect(Sign::CloseParen)?;
        Ok(condition)
    }

    pub fn label(&mut self) -> Parsed<Option<Name>> {
        let label = if self.is(Sign::Semicolon) {
            None
        } else {
            Some(self.name()?)
        };
        self.expect(Sign::Semicolon)?;
        Ok(label)
    }

    pub fn statement(&mut self, limit: usize) -> Parsed<(Statement, usize)> {
        if limit == 0 {
            return self.deep();
        }
        let start = self.place();
        match self.kind(0) {
            None => self.syntax(),
            Some(Kind::Sign(Sign::Semicolon)) => {
                self.at += 1;
                Ok((Statement::Empty(self.span(start)), 1))
            }
            Some(Kind::Sign(Sign::OpenBrace)) => {
                let (block, height) = self.block(limit)?;
                Ok((Statement::Block(block), height))
            }
            Some(Kind::Word(Word::If)) => self.choice(limit - 1),
            Some(Kind::Word(Word::While)) => self.repetition(start, None, limit - 1),
            Some(Kind::Word(Word::Break)) => {
                self.at += 1;
                let label = self.label()?;
                Ok((Statement::Break(label, self.span(start)), 1))
            }
            Some(Kind::Word(Word::Continue)) => {
                self.at += 1;
                let label = self.label()?;
                Ok((Statement::Continue(label, self.span(start)), 1))
            }
            Some(Kind::Word(Word::Return)) => self.returned(start, limit - 1),
            Some(Kind::Word(Word::Try)) => self.guarded(start, limit - 1),
            _ => self.other(start, limit - 1),
        }
    }

    fn returned(&mut self, start: usize, limit: usize) -> Parsed<(Statement, usize)> {
        self.at += 1;
        let (value, height) = if self.is(Sign::Semicolon) {
            (None, 0)
        } else {
            let (value, height) = self.term(limit)?;
            (Some(value), height)
        };
        self.expect(Sign::Semicolon)?;
        Ok((Statement::Return(value, self.span(start)), height + 1))
    }

    fn guarded(&mut self, start: usize, limit: usize) -> Parsed<(Statement, usize)> {
        self.at += 1;
        let (body, h) = self.block(limit)?;
        self.expect_word(Word::Finally)?;
        let (finally, k) = self.block(limit)?;
        Ok((Statement::Try(body, finally, self.span(start)), h.max(k) + 1))
    }

    pub fn choice(&mut self, limit: usize) -> Parsed<(Statement, usize)> {
        let start = self.place();
        self.at += 1;
        let (condition, h) = self.condition(limit)?;
        let (first, k) = self.statement(limit)?;
        let mut height = h.max(k);
        let mut second = None;
        if self.takes_word(Word::Else) {
            let (other, k) = self.statement(limit)?;
            height = height.max(k);
            second = Some(Box::new(other));
        }
        Ok((
            Statement::If(condition, Box::new(first), second, self.span(start)),
            height + 1,
        ))
    }

    pub fn repetition(&mut self, start: usize, label: Option<Name>, limit: usize) -> Parsed<(Statement, usize)> {
        self.expect_word(Word::While)?;
        let (condition, h) = self.condition(limit)?;
        let (body, k) = self.statement(limit)?;
        Ok((
            Statement::While(label, condition, Box::new(body), self.span(start)),
            h.max(k) + 1,
        ))
    }

    pub fn other(&mut self, start: usize, limit: usize) -> Parsed<(Statement, usize)> {
        if let (Some(Kind::Name(_)), Some(Kind::Sign(Sign::Colon))) = (self.kind(0), self.kind(1)) {
            let label = self.name()?;
            self.at += 1;
            return self.repetition(start, Some(label), limit);
        }
        let (target, h) = self.post(limit, false)?;
        if self.takes(Sign::Assign) {
            let (value, k) = self.term(limit)?;
            self.expect(Sign::Semicolon)?;
            return Ok((Statement::Assign(target, value, self.span(start)), h.max(k) + 1));
        }
        if !matches!(target, Expr::Call(..) | Expr::New(..) | Expr::NewMarkable(..)) {
            return self.syntax();
        }
        self.expect(Sign::Semicolon)?;
        Ok((Statement::Expression(target, self.span(start)), h + 1))
    }
}
