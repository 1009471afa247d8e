// The checked tree of the class text in src/part.rt, and its programs.

use crate::ls_checked::program::{Program, ProgramCall, SetupName, ThreadProgram};
use crate::ls_checked::tree::{
    Called, Class, Expression, Expressions, File, Method, Operator, Statement,
};
use crate::ls_events::value::{Value, ValueType};

fn int(n: i32) -> Expression {
    Expression::Literal(Value::Int(n))
}

fn slot(n: usize) -> Expression {
    Expression::Slot(n)
}

fn two(op: Operator, a: Expression, b: Expression) -> Expression {
    Expression::Binary(op, Box::new(a), Box::new(b))
}

fn field(n: usize) -> Expression {
    Expression::Field { target: Box::new(slot(0)), class: 0, field: n }
}

fn set_field(n: usize, value: Expression) -> Statement {
    Statement::SetField { target: slot(0), field: n, value }
}

fn repeated(test: Expression, body: Vec<Statement>) -> Statement {
    Statement::While(test, Box::new(Statement::Block(body)))
}

// A local that is declared with 0: first it has the start of its type, then the value.
fn declared(n: usize) -> [Statement; 2] {
    [Statement::SetSlot(n, int(0)), Statement::SetSlot(n, int(0))]
}

fn counted(n: usize) -> Statement {
    Statement::SetSlot(n, two(Operator::Add, slot(n), int(1)))
}

fn on_lock(called: Called) -> Statement {
    Statement::Evaluate(Expression::Call(Box::new(field(1)), called, Box::new(Expressions::End)))
}

fn method(ints: usize, parameters: usize, result: Option<ValueType>, body: Vec<Statement>) -> Method {
    let mut slots = vec![ValueType::Class(0)];
    slots.extend(vec![ValueType::Int; ints]);
    Method { class: 0, parameters, slots, result, body: Statement::Block(body) }
}

fn arithmetic() -> Method {
    let sum = two(Operator::Add, two(Operator::Multiply, slot(3), int(3)), slot(2));
    let test = two(Operator::Less, slot(2), slot(1));
    let mut body: Vec<Statement> = declared(2).into();
    body.extend(declared(3));
    body.push(repeated(test, vec![Statement::SetSlot(3, sum), counted(2)]));
    method(3, 1, None, body)
}

fn fields() -> Method {
    let more = set_field(0, two(Operator::Add, field(0), int(1)));
    method(1, 1, None, vec![repeated(two(Operator::Less, field(0), slot(1)), vec![more])])
}

fn calls() -> Method {
    let all = Expressions::More(Box::new(slot(2)), Box::new(Expressions::End));
    let call = Expression::Call(Box::new(slot(0)), Called::Method(3), Box::new(all));
    let mut body: Vec<Statement> = declared(2).into();
    body.push(repeated(two(Operator::Less, slot(2), slot(1)), vec![Statement::SetSlot(2, call)]));
    method(2, 1, None, body)
}

fn next() -> Method {
    let more = two(Operator::Add, slot(1), int(1));
    method(1, 1, Some(ValueType::Int), vec![Statement::ReturnValue(more)])
}

fn locks() -> Method {
    let turn = vec![on_lock(Called::LockIt), on_lock(Called::UnlockIt), counted(2)];
    let mut body: Vec<Statement> = declared(2).into();
    body.push(repeated(two(Operator::Less, slot(2), slot(1)), turn));
    method(2, 1, None, body)
}

pub fn file() -> File {
    let class = Class { fields: vec![ValueType::Int, ValueType::Lock], constructor: 5 };
    let constructor = method(0, 0, None, vec![set_field(1, Expression::MakeLock)]);
    let methods = vec![arithmetic(), fields(), calls(), next(), locks(), constructor];
    File { classes: vec![class], methods }
}

fn thread(call: ProgramCall) -> ThreadProgram {
    ThreadProgram { name: String::new(), calls: vec![call] }
}

fn calling(method: usize) -> ThreadProgram {
    thread(ProgramCall::Calling {
        name: 0,
        method,
        method_name: String::new(),
        result: None,
        values: vec![Value::Int(2_000_000_000)],
    })
}

pub fn program(method: usize) -> Program {
    let making = thread(ProgramCall::Making {
        name: 0,
        class: 0,
        class_name: String::new(),
        values: Vec::new(),
    });
    Program {
        names: vec![SetupName { name: String::new(), class: 0 }],
        threads: vec![making, calling(method), calling(method)],
    }
}
