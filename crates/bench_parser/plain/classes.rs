// Files, classes and members, in plain Rust.

use crate::lexer::{Kind, Sign, Word};
use crate::parser::{Parsed, Parser};
use crate::tree::{Block, Class, ClassFile, Declaration, Declarator, Member, Modifier, Name, Parameter, Type};

impl<'t, 'a> Parser<'t, 'a> {
    pub fn file(&mut self) -> Parsed<ClassFile> {
        let mut package = None;
        if self.takes_word(Word::Package) {
            let mut names = vec![self.name()?];
            while !self.is(Sign::Semicolon) {
                self.expect(Sign::Dot)?;
                names.push(self.name()?);
            }
            self.expect(Sign::Semicolon)?;
            package = Some(names);
        }
        let mut imports = Vec::new();
        while self.takes_word(Word::Import) {
            imports.push(self.import()?);
        }
        let mut classes = Vec::new();
        while self.at < self.tokens.len() {
            classes.push(self.class()?);
        }
        Ok(ClassFile {
            package,
            imports,
            classes,
        })
    }

    pub fn import(&mut self) -> Parsed<(Vec<Name>, bool)> {
        let mut names = vec![self.name()?];
        loop {
            if self.takes(Sign::Semicolon) {
                return Ok((names, false));
            }
            self.expect(Sign::Dot)?;
            if self.takes(Sign::Star) {
                self.expect(Sign::Semicolon)?;
                return Ok((names, true));
            }
            names.push(self.name()?);
        }
    }

    pub fn class(&mut self) -> Parsed<Class> {
        let modifiers = self.modifiers()?;
        self.expect_word(Word::Class)?;
        let name = self.name()?;
        self.expect(Sign::OpenBrace)?;
        let mut members = Vec::new();
        while !self.takes(Sign::CloseBrace) {
            members.push(self.member()?);
        }
        Ok(Class {
            modifiers,
            name,
            members,
        })
    }

    pub fn starts_modifier(&self) -> bool {
        use Word::{Final, Private, Protected, Public, Volatile};
        matches!(
            self.kind(0),
            Some(Kind::Word(Public | Protected | Private | Final | Volatile) | Kind::Sign(Sign::At))
        )
    }

    pub fn modifiers(&mut self) -> Parsed<Vec<Modifier>> {
        let mut modifiers = Vec::new();
        while self.starts_modifier() {
            let kind = self.kind(0);
            self.at += 1;
            modifiers.push(match kind {
                Some(Kind::Word(word)) => Modifier::Word(word),
                _ => Modifier::Annotation(self.name()?),
            });
        }
        Ok(modifiers)
    }

    pub fn markable_class(&mut self) -> Parsed<Name> {
        self.expect(Sign::Less)?;
        let name = self.name()?;
        self.expect(Sign::Greater)?;
        Ok(name)
    }

    pub fn type_name(&mut self) -> Parsed<Type> {
        match self.kind(0) {
            Some(Kind::Name(text)) => {
                let name = self.name()?;
                if text == "AtomicMarkableReference" && self.is(Sign::Less) {
                    Ok(Type::Markable(self.markable_class()?))
                } else {
                    Ok(Type::Class(name))
                }
            }
            Some(Kind::Word(Word::Int)) => {
                self.at += 1;
                Ok(Type::Int)
            }
            Some(Kind::Word(Word::Boolean)) => {
                self.at += 1;
                if self.takes(Sign::OpenBracket) {
                    self.expect(Sign::CloseBracket)?;
                    Ok(Type::BooleanArray)
                } else {
                    Ok(Type::Boolean)
                }
            }
            _ => self.syntax(),
        }
    }

    pub fn starts_call(&self) -> bool {
        matches!(
            (self.kind(0), self.kind(1)),
            (Some(Kind::Name(_)), Some(Kind::Sign(Sign::OpenParen)))
        )
    }

    pub fn member(&mut self) -> Parsed<Member> {
        let start = self.place();
        let modifiers = self.modifiers()?;
        if self.starts_call() {
            let name = self.name()?;
            let parameters = self.parameters()?;
            return Ok(Member::Constructor(modifiers, name, parameters, self.body()?));
        }
        let result = if self.takes_word(Word::Void) {
            None
        } else {
            Some(self.type_name()?)
        };
        if result.is_none() || self.starts_call() {
            let name = self.name()?;
            let parameters = self.parameters()?;
            return Ok(Member::Method(modifiers, result, name, parameters, self.body()?));
        }
        let Some(type_name) = result else { return self.syntax() };
        Ok(Member::Field(self.declarators(start, modifiers, type_name, 128)?.0))
    }

    pub fn body(&mut self) -> Parsed<Block> {
        Ok(self.block(128)?.0)
    }

    pub fn parameters(&mut self) -> Parsed<Vec<Parameter>> {
        self.expect(Sign::OpenParen)?;
        let mut parameters = Vec::new();
        if self.takes(Sign::CloseParen) {
            return Ok(parameters);
        }
        loop {
            let modifiers = self.modifiers()?;
            let type_name = self.type_name()?;
            let name = self.name()?;
            parameters.push(Parameter {
                modifiers,
                type_name,
                name,
            });
            if self.takes(Sign::CloseParen) {
                return Ok(parameters);
            }
            self.expect(Sign::Comma)?;
        }
    }

    pub fn declarator(&mut self, limit: usize) -> Parsed<(Declarator, usize)> {
        let name = self.name()?;
        if self.takes(Sign::Assign) {
            let (value, height) = self.term(limit)?;
            Ok((
                Declarator {
                    name,
                    value: Some(value),
                },
                height,
            ))
        } else {
            Ok((Declarator { name, value: None }, 0))
        }
    }

    pub fn declarators(
        &mut self,
        start: usize,
        modifiers: Vec<Modifier>,
        type_name: Type,
        limit: usize,
    ) -> Parsed<(Declaration, usize)> {
        let (first, mut height) = self.declarator(limit)?;
        let mut more = Vec::new();
        while !self.takes(Sign::Semicolon) {
            self.expect(Sign::Comma)?;
            let (declarator, h) = self.declarator(limit)?;
            more.push(declarator);
            height = height.max(h);
        }
        let span = self.span(start);
        Ok((
            Declaration {
                modifiers,
                type_name,
                first,
                more,
                span,
            },
            height,
        ))
    }
}
