// Trees, in plain Rust.

use crate::lexer::{Sign, Span, Word};

pub struct Name {
    pub text: String,
    pub span: Span,
}

pub struct ClassFile {
    pub package: Option<Vec<Name>>,
    pub imports: Vec<(Vec<Name>, bool)>,
    pub classes: Vec<Class>,
}

pub struct Class {
    pub modifiers: Vec<Modifier>,
    pub name: Name,
    pub members: Vec<Member>,
}

pub enum Modifier {
    Word(Word),
    Annotation(Name),
}

pub enum Type {
    Int,
    Boolean,
    BooleanArray,
    Class(Name),
    Markable(Name),
}

pub enum Member {
    Field(Declaration),
    Method(Vec<Modifier>, Option<Type>, Name, Vec<Parameter>, Block),
    Constructor(Vec<Modifier>, Name, Vec<Parameter>, Block),
}

pub struct Parameter {
    pub modifiers: Vec<Modifier>,
    pub type_name: Type,
    pub name: Name,
}

pub struct Declaration {
    pub modifiers: Vec<Modifier>,
    pub type_name: Type,
    pub first: Declarator,
    pub more: Vec<Declarator>,
    pub span: Span,
}

pub struct Declarator {
    pub name: Name,
    pub value: Option<Expr>,
}

pub struct Block {
    pub items: Vec<Item>,
    pub span: Span,
}

pub enum Item {
    Statement(Statement),
    Declaration(Declaration),
}

pub enum Statement {
    Block(Block),
    Empty(Span),
    If(Expr, Box<Statement>, Option<Box<Statement>>, Span),
    While(Option<Name>, Expr, Box<Statement>, Span),
    Break(Option<Name>, Span),
    Continue(Option<Name>, Span),
    Return(Option<Expr>, Span),
    Try(Block, Block, Span),
    Assign(Expr, Expr, Span),
    Expression(Expr, Span),
}

pub enum Expr {
    Number(String, Span),
    Constant(Word, Span),
    Name(Name),
    Paren(Box<Expr>, Span),
    Unary(Sign, Box<Expr>, Span),
    Binary(Sign, Box<Expr>, Box<Expr>, Span),
    Field(Box<Expr>, Name, Span),
    Call(Option<Box<Expr>>, Name, Vec<Expr>, Span),
    Element(Box<Expr>, Box<Expr>, Span),
    New(Name, Vec<Expr>, Span),
    NewMarkable(Name, Vec<Expr>, Span),
    NewArray(Box<Expr>, Span),
}

impl Expr {
    pub fn span(&self) -> Span {
        match self {
            Expr::Name(name) => name.span,
            Expr::Number(_, s)
            | Expr::Constant(_, s)
            | Expr::Paren(_, s)
            | Expr::Unary(_, _, s)
            | Expr::Binary(_, _, _, s)
            | Expr::Field(_, _, s)
            | Expr::Call(_, _, _, s)
            | Expr::Element(_, _, s)
            | Expr::New(_, _, s)
            | Expr::NewMarkable(_, _, s)
            | Expr::NewArray(_, s) => *s,
        }
    }
}
