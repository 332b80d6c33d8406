//! Reads one case of naga_check's notation from standard input and judges it by naga's own code: `ok` and the stages, `fault` and
//! the fault as naga's `Debug` has it, or `unreadable`. For timings (docs/lab/SPEED.md) and comparisons (`bodies`): options are read, and
//! the judgement is with all flags.
//!
//! It is no crate of this repository: it is built as a binary beside naga 30.0.1's `function.rs` and `interface.rs` in a stub of the rest of
//! naga (`naga`), whose short ways to build modules are `harness::sink`.
use harness::sink::*;
use naga::valid::*;
use naga::*;
use std::io::{Read, Write};
use std::iter::Peekable;
use std::process::ExitCode;
use std::str::SplitAsciiWhitespace;

struct Reader<'a> {
    words: Peekable<SplitAsciiWhitespace<'a>>,
    bench: &'a str,
    open: usize,
}

impl<'a> Reader<'a> {
    fn name(&self, word: &str) -> Option<E> {
        let at = match word {
            "t" => 0,
            "u" => 1,
            "i" => 2,
            "e1" => 3,
            "v" => 4,
            "x1" => 5,
            "r1" if self.bench == "C" => 6,
            "e2" if self.bench == "D" => 6,
            _ => return None,
        };
        Some(Handle::from_index(at))
    }

    fn next_name(&mut self) -> Option<E> {
        let word = self.words.next()?;
        self.name(word)
    }

    fn peeked_name(&mut self) -> Option<E> {
        let word = *self.words.peek()?;
        self.name(word)
    }

    fn word(&mut self, word: &str) -> Option<()> {
        (self.words.next()? == word).then_some(())
    }

    fn takes(&mut self, word: &str) -> bool {
        self.words.next_if_eq(&word).is_some()
    }

    fn open(&mut self) -> Option<()> {
        self.word("{")?;
        self.open += 1;
        (self.open <= 256).then_some(())
    }

    fn braces(&mut self) -> Option<Block> {
        self.open()?;
        let list = self.list()?;
        self.word("}")?;
        self.open -= 1;
        Some(list)
    }

    fn list(&mut self) -> Option<Block> {
        let mut list = Block::new();
        while let Some(word) = self.words.peek() {
            if *word == "}" {
                break;
            }
            let statement = self.statement()?;
            list.push(statement, NO);
        }
        Some(list)
    }

    fn statement(&mut self) -> Option<Statement> {
        Some(match self.words.next()? {
            "emit" => {
                let first = self.next_name()?;
                let last = if self.takes("..") { self.next_name()? } else { first };
                if last.index() < first.index() {
                    return None;
                }
                Statement::Emit(Range::new_from_bounds(first, last))
            }
            "block" => Statement::Block(self.braces()?),
            "if" => Statement::If { condition: self.next_name()?, accept: self.braces()?, reject: self.braces()? },
            "switch" => self.switch()?,
            "loop" => {
                let (body, continuing) = (self.braces()?, self.braces()?);
                let break_if = if self.takes("break_if") { Some(self.next_name()?) } else { None };
                Statement::Loop { body, continuing, break_if }
            }
            "break" => Statement::Break,
            "continue" => Statement::Continue,
            "return" => {
                let value = self.peeked_name();
                if value.is_some() {
                    self.words.next();
                }
                Statement::Return { value }
            }
            "kill" => Statement::Kill,
            "store" => Statement::Store { pointer: self.next_name()?, value: self.next_name()? },
            "barrier" => Statement::ControlBarrier(Barrier::empty()),
            "call" if self.bench == "C" => {
                self.word("f")?;
                let result = if self.takes("->") { Some(self.next_name()?) } else { None };
                Statement::Call { function: Handle::from_index(0), arguments: vec![], result }
            }
            _ => return None,
        })
    }

    fn switch(&mut self) -> Option<Statement> {
        let selector = self.next_name()?;
        self.open()?;
        let mut cases = vec![];
        while !self.takes("}") {
            let word = self.words.next()?;
            let value = match word.strip_suffix('i') {
                _ if word == "default" => SwitchValue::Default,
                Some(digits) => SwitchValue::I32(digits.parse().ok()?),
                None => SwitchValue::U32(word.parse().ok()?),
            };
            let fall_through = self.takes("fall");
            cases.push(SwitchCase { value, body: self.braces()?, fall_through });
        }
        self.open -= 1;
        Some(Statement::Switch { selector, cases })
    }
}

fn judged(input: &[u8]) -> Option<Result<u32, String>> {
    if input.len() > 65536 || !input.iter().all(|it| it.is_ascii_graphic() || b" \t\r\n".contains(it)) {
        return None;
    }
    let text = std::str::from_utf8(input).ok()?;
    let mut words = text.split_ascii_whitespace().peekable();
    let bench = words.next().filter(|it| ["P", "C", "D"].contains(it))?;
    let mut options = vec![];
    loop {
        match words.next()? {
            ":" => break,
            word if ["-expressions", "-blocks"].contains(&word) && !options.contains(&word) => options.push(word),
            _ => return None,
        }
    }
    let mut reader = Reader { words, bench, open: 0 };
    let body = reader.list()?;
    if reader.words.next().is_some() {
        return None;
    }
    let mut m = Module::default();
    m.ty(scalar(Scalar::BOOL));
    let u = m.ty(scalar(Scalar::U32));
    m.ty(scalar(Scalar::I32));
    if bench == "C" {
        let mut f = Function::default();
        let value = Some(f.lit(Scalar::U32));
        f.result = Some(FunctionResult { ty: u, binding: None });
        f.body = vec![Statement::Return { value }].into();
        m.functions.append(f, NO);
    }
    let mut g = Function::default();
    let t = g.lit(Scalar::BOOL);
    g.lit(Scalar::U32);
    g.lit(Scalar::I32);
    g.unary(t);
    let v = g.local(u);
    let x1 = g.e(Expression::Load { pointer: v });
    match bench {
        "C" => drop(g.e(Expression::CallResult(Handle::from_index(0)))),
        "D" => drop(g.unary(x1)),
        _ => {}
    }
    g.body = body;
    m.functions.append(g, NO);
    let mut v = m.good_validator();
    let mut infos = ModuleInfo::default();
    for (_, f) in m.functions.iter() {
        match v.function(f, &m, &infos, false) {
            Ok(info) => infos.functions.push(info),
            Err(e) => return Some(Err(format!("{:?}", e.as_inner()))),
        }
    }
    Some(Ok(infos.functions.last().map_or(0, |it| it.available_stages.bits() as u32)))
}

fn main() -> ExitCode {
    let mut input = vec![];
    std::io::stdin().lock().take(65537).read_to_end(&mut input).unwrap();
    let (line, status) = match judged(&input) {
        Some(Ok(stages)) => (format!("ok {stages:03x}\n"), 0),
        Some(Err(e)) => (format!("fault {e}\n"), 1),
        None => ("unreadable\n".into(), 2),
    };
    std::io::stdout().write_all(line.as_bytes()).unwrap();
    ExitCode::from(status)
}
