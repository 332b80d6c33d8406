//! Times naga's own code over cases of crates/bench: whole functions, entry points and modules (group `d`), and the sizes of bodies
//! (groups `a` to `c`) that the benchmark of naga's code leaves out. With an argument, only those whose names begin so. A line has the name, the statements (an entry point counts as one), the expressions, the median and the
//! fastest judgement, the same of the lower layer alone, the judgement's own share for each statement by both, and the repetitions, in
//! nanoseconds: what `sh tools/bench` reads of its second argument.
//!
//! A judgement is the whole public call, on one validator that is kept between the calls of a case. What it answers is dropped behind the
//! clock. Every answer must be a good one.
//!
//! It is no crate of this repository: it is built as a binary beside naga 30.0.1's `function.rs` and `interface.rs` in a stub of the rest of
//! naga (`naga`), whose short ways to build modules are `harness::sink`.
use harness::sink::*;
use naga::proc::ExpressionKindTracker;
use naga::valid::*;
use naga::*;
use std::hint::black_box;
use std::time::Instant;

/// How many statements the large function has.
const LARGE: usize = 1_000_000;

/// What was timed, and how long each repetition took.
#[derive(Default)]
struct Timed {
    statements: usize,
    expressions: usize,
    whole: Vec<u128>,
    lower: Vec<u128>,
}

fn at<T>(index: usize) -> Handle<T> {
    Handle::from_index(index)
}

/// A module of the types `bool`, `u32` and `i32`.
fn types() -> Module {
    let mut module = Module::default();
    module.ty(scalar(Scalar::BOOL));
    module.ty(scalar(Scalar::U32));
    module.ty(scalar(Scalar::I32));
    module
}

/// A module of the types and of a function that returns a `u32`.
fn with_callee() -> Module {
    let mut module = types();
    let mut fun = Function::default();
    let value = Some(fun.lit(Scalar::U32));
    fun.result = Some(FunctionResult { ty: at(1), binding: None });
    fun.body = vec![Statement::Return { value }].into();
    module.functions.append(fun, NO);
    module
}

/// A function with the three expressions that each has: true, a `u32`, and a pointer to its local.
fn begun() -> Function {
    let mut fun = Function::default();
    fun.e(Expression::Literal(Literal { scalar: Scalar::BOOL, bits: 1 }));
    fun.e(Expression::Literal(Literal { scalar: Scalar::U32, bits: 1 }));
    fun.local(at(1));
    fun
}

fn store(value: E) -> Statement {
    Statement::Store { pointer: at(2), value }
}

/// So many Emits of one Load each.
fn emits(count: usize) -> Function {
    let mut fun = begun();
    for _ in 0..count {
        let load = fun.e(Expression::Load { pointer: at(2) });
        fun.body.push(emit(load), NO);
    }
    fun
}

/// So many Calls with a result.
fn calls(count: usize) -> Function {
    let mut fun = begun();
    for _ in 0..count {
        let result = Some(fun.e(Expression::CallResult(at(0))));
        fun.body.push(Statement::Call { function: at(0), arguments: vec![], result }, NO);
    }
    fun
}

/// So many statements, by turns an Emit of two, a Store, a Call and a Store.
fn mix(count: usize) -> Function {
    let mut fun = begun();
    for _ in 0..count / 4 {
        let load = fun.e(Expression::Load { pointer: at(2) });
        let unary = fun.unary(load);
        let result = fun.e(Expression::CallResult(at(0)));
        let call = Statement::Call { function: at(0), arguments: vec![], result: Some(result) };
        fun.body.push(Statement::Emit(Range::new_from_bounds(load, unary)), NO);
        fun.body.push(store(unary), NO);
        fun.body.push(call, NO);
        fun.body.push(store(result), NO);
    }
    fun
}

/// What holds a list: one kind of statement, or the three by turns.
#[derive(Clone, Copy)]
enum Holder {
    Block,
    If,
    Loop,
    Mix,
}

fn hold(holder: Holder, level: usize, list: Vec<Statement>) -> Statement {
    let body = Block::from(list);
    match (holder, level % 3) {
        (Holder::Block, _) | (Holder::Mix, 0) => Statement::Block(body),
        (Holder::If, _) | (Holder::Mix, 1) => Statement::If { condition: at(0), accept: body, reject: Block::new() },
        _ => Statement::Loop { body, continuing: Block::new(), break_if: None },
    }
}

/// Lists in one another, so deep: each has so many Emits of one Load before what it holds, and so many Stores behind it.
fn nest(holder: Holder, depth: usize, width: usize) -> Function {
    let mut fun = begun();
    for _ in 0..(depth + 1) * width {
        fun.e(Expression::Load { pointer: at(2) });
    }
    let emits = |level: usize| (0..width).map(move |index| emit(at(3 + level * width + index)));
    let stores = || (0..width).map(|_| store(at(1)));
    let mut list: Vec<_> = emits(depth).chain(stores()).collect();
    for level in (0..depth).rev() {
        let inner = hold(holder, level, list);
        list = emits(level).chain([inner]).chain(stores()).collect();
    }
    fun.body = list.into();
    fun
}

/// So many Blocks of an Emit of ten Loads and a Store.
fn own_blocks(count: usize) -> Function {
    let mut fun = begun();
    for _ in 0..count {
        let loads: Vec<_> = (0..10).map(|_| fun.e(Expression::Load { pointer: at(2) })).collect();
        let list = vec![Statement::Emit(Range::new_from_bounds(loads[0], loads[9])), store(loads[0])];
        fun.body.push(Statement::Block(list.into()), NO);
    }
    fun
}

/// A Switch with so many cases of one Store, whose values are multiples of a factor, and a default case.
fn switch(count: u32, factor: u32) -> Function {
    let mut fun = begun();
    let case = |value| SwitchCase { value, body: vec![store(at(1))].into(), fall_through: false };
    let mut cases: Vec<_> = (0..count).map(|index| case(SwitchValue::U32(index.wrapping_mul(factor)))).collect();
    cases.push(case(SwitchValue::Default));
    fun.body.push(Statement::Switch { selector: at(1), cases }, NO);
    fun
}

/// A factor that puts the values in no order: odd, so that no two are the same.
const SCATTER: u32 = 2654435761;

/// How many statements a list has, those within them too.
fn statements_of(list: &Block) -> usize {
    let within = |statement: &Statement| match statement {
        Statement::Block(body) => statements_of(body),
        Statement::If { accept, reject, .. } => statements_of(accept) + statements_of(reject),
        Statement::Switch { cases, .. } => cases.iter().map(|case| statements_of(&case.body)).sum(),
        Statement::Loop { body, continuing, .. } => statements_of(body) + statements_of(continuing),
        _ => 0,
    };
    list.span_iter().map(|(statement, _)| 1 + within(statement)).sum()
}

/// The statements of `mix` and a Return, in a function with sixteen arguments and locals and a result.
fn whole(count: usize) -> Function {
    let mut fun = mix(count);
    for _ in 0..16 {
        fun.arguments.push(FunctionArgument { name: None, ty: at(1), binding: None });
    }
    while fun.local_variables.len() < 16 {
        fun.local_variables.append(LocalVariable { name: None, ty: at(1), init: None }, NO);
    }
    fun.result = Some(FunctionResult { ty: at(1), binding: None });
    fun.body.push(Statement::Return { value: Some(at(1)) }, NO);
    fun
}

/// A module of the callee and, behind it, so many functions that are timed.
fn module_of(make: impl Fn() -> Function, count: usize) -> Module {
    let mut module = with_callee();
    for _ in 0..count {
        module.functions.append(make(), NO);
    }
    module
}

/// The functions of a module behind the callee.
fn rest(module: &Module) -> impl Iterator<Item = &Function> {
    module.functions.iter().skip(1).map(|(_, fun)| fun)
}

/// The info of the callee, which the others call.
fn infos_of_callee(validator: &mut Validator, module: &Module) -> ModuleInfo {
    let mut infos = ModuleInfo::default();
    let info = validator.function(&module.functions[at(0)], module, &infos, false);
    infos.functions.push(info.unwrap());
    infos
}

/// One judgement of a function.
fn judge(validator: &mut Validator, fun: &Function, module: &Module, infos: &ModuleInfo) -> u128 {
    let start = Instant::now();
    let answer = validator.function(black_box(fun), black_box(module), black_box(infos), false);
    let time = start.elapsed();
    assert!(black_box(&answer).is_ok());
    time.as_nanos()
}

/// One judgement of an entry point.
fn judge_entry(validator: &mut Validator, ep: &EntryPoint, module: &Module, infos: &ModuleInfo) -> u128 {
    let start = Instant::now();
    let answer = validator.entry_point(black_box(ep), black_box(module), black_box(infos));
    let time = start.elapsed();
    assert!(black_box(&answer).is_ok());
    time.as_nanos()
}

/// The lower layer alone: types, uses and kinds.
fn lower(fun: &Function, module: &Module, infos: &ModuleInfo) -> u128 {
    let (flags, capabilities) = (ValidationFlags::all(), Capabilities::all());
    let start = Instant::now();
    let info = black_box(infos).process_function(black_box(fun), black_box(module), flags, capabilities);
    let kinds = ExpressionKindTracker::from_arena(black_box(&fun.expressions));
    let time = start.elapsed();
    black_box(&kinds);
    assert!(black_box(&info).is_ok());
    time.as_nanos()
}

/// What takes so long, at least this often, for 0.4 seconds, and at most 2000 times.
fn repeated(least: usize, mut one: impl FnMut() -> u128) -> Vec<u128> {
    let start = Instant::now();
    let mut times = vec![];
    while times.len() < least || (start.elapsed().as_secs_f64() < 0.4 && times.len() < 2000) {
        times.push(one());
    }
    times
}

/// A function by a validator that judged no other but the callee: as often as the benchmark of naga's code repeats its cases.
fn body(make: impl Fn() -> Function) -> Timed {
    let mut validator = types().good_validator();
    let module = module_of(make, 1);
    let infos = infos_of_callee(&mut validator, &module);
    let fun = &module.functions[at(1)];
    Timed {
        statements: statements_of(&fun.body),
        expressions: fun.expressions.len(),
        whole: repeated(15, || judge(&mut validator, fun, &module, &infos)),
        lower: repeated(15, || lower(fun, &module, &infos)),
    }
}

/// One function, by this validator, so many times in a row.
fn function(validator: &mut Validator, make: impl Fn() -> Function, count: usize) -> Timed {
    let module = module_of(make, 1);
    let infos = infos_of_callee(validator, &module);
    let fun = &module.functions[at(1)];
    Timed {
        statements: fun.body.len(),
        expressions: fun.expressions.len(),
        whole: (0..count).map(|_| judge(validator, fun, &module, &infos)).collect(),
        lower: (0..count).map(|_| lower(fun, &module, &infos)).collect(),
    }
}

/// A function by a validator that judged no other but the callee.
fn alone(make: impl Fn() -> Function) -> Timed {
    function(&mut types().good_validator(), make, 2000)
}

/// A function by a validator that judged the large one before.
fn after_large(make: impl Fn() -> Function) -> Timed {
    let mut validator = types().good_validator();
    function(&mut validator, || emits(LARGE), 1);
    function(&mut validator, make, 2000)
}

/// The first such function behind the large one, in ten turns, and the lower layer in ten more.
fn first_after_large(make: impl Fn() -> Function) -> Timed {
    let mut validator = types().good_validator();
    let small = module_of(make, 1);
    let infos = infos_of_callee(&mut validator, &small);
    let large = module_of(|| emits(LARGE), 1);
    let (fun, first) = (&small.functions[at(1)], &large.functions[at(1)]);
    let mut timed = Timed { statements: fun.body.len(), expressions: fun.expressions.len(), ..Timed::default() };
    for _ in 0..10 {
        judge(&mut validator, first, &large, &infos);
        lower(first, &large, &infos);
        timed.whole.push(judge(&mut validator, fun, &small, &infos));
    }
    // The lower layer in turns of its own, so that it begins as cold as it does within a judgement.
    for _ in 0..10 {
        judge(&mut validator, first, &large, &infos);
        lower(first, &large, &infos);
        timed.lower.push(lower(fun, &small, &infos));
    }
    timed
}

/// So many functions one behind the other, in forty turns. The times of a turn are added up.
fn functions(make: impl Fn() -> Function, count: usize) -> Timed {
    let mut validator = types().good_validator();
    let module = module_of(make, count);
    let infos = infos_of_callee(&mut validator, &module);
    let mut timed = Timed {
        statements: rest(&module).map(|fun| fun.body.len()).sum(),
        expressions: rest(&module).map(|fun| fun.expressions.len()).sum(),
        ..Timed::default()
    };
    for _ in 0..40 {
        let (mut sum, mut sum_of_lower) = (0, 0);
        for fun in rest(&module) {
            sum += judge(&mut validator, fun, &module, &infos);
            sum_of_lower += lower(fun, &module, &infos);
        }
        timed.whole.push(sum);
        timed.lower.push(sum_of_lower);
    }
    timed
}

/// A fragment shader that takes in so many varyings, from a location on, and uses so many globals.
fn entry(first: u32, varyings: u32, globals: usize, count: usize) -> Timed {
    let mut module = types();
    let mut function = Function::default();
    for index in 0..varyings {
        let binding = Some(Binding::Location {
            location: first + index,
            interpolation: Some(Interpolation::Flat),
            sampling: None,
            blend_src: None,
            per_primitive: false,
        });
        function.arguments.push(FunctionArgument { name: None, ty: at(1), binding });
    }
    for _ in 0..globals {
        let global = module.global(AddressSpace::Private, at(1));
        function.e(Expression::GlobalVariable(global));
    }
    let ep = EntryPoint {
        stage: ShaderStage::Fragment,
        early_depth_test: None,
        workgroup_size: [0; 3],
        function,
        mesh_info: None,
        task_payload: None,
    };
    let infos = ModuleInfo::default();
    let mut validator = module.good_validator();
    let mut timed = Timed { statements: 1, expressions: ep.function.expressions.len(), ..Timed::default() };
    for _ in 0..count {
        timed.whole.push(judge_entry(&mut validator, &ep, &module, &infos));
        timed.lower.push(lower(&ep.function, &module, &infos));
    }
    // naga's set of locations has a bit for each up to the last one
    assert!(validator.location_bytes() > (first + (varyings - 1)) as usize / 8);
    timed
}

/// The cases by name. At the last location the set of locations takes 512 MiB, which each judgement clears twice, so it is
/// repeated less often than ours, which is timed 2000 times.
const CASES: [(&str, fn() -> Timed); 36] = [
    ("a call 1000000", || body(|| calls(1_000_000))),
    ("a mix 1000000", || body(|| mix(1_000_000))),
    ("b block depth 200 width 2", || body(|| nest(Holder::Block, 200, 2))),
    ("b block depth 200 width 25", || body(|| nest(Holder::Block, 200, 25))),
    ("b block depth 200 width 250", || body(|| nest(Holder::Block, 200, 250))),
    ("b block depth 200 width 2500", || body(|| nest(Holder::Block, 200, 2500))),
    ("b if depth 200 width 2", || body(|| nest(Holder::If, 200, 2))),
    ("b if depth 200 width 25", || body(|| nest(Holder::If, 200, 25))),
    ("b if depth 200 width 250", || body(|| nest(Holder::If, 200, 250))),
    ("b if depth 200 width 2500", || body(|| nest(Holder::If, 200, 2500))),
    ("b loop depth 200 width 2", || body(|| nest(Holder::Loop, 200, 2))),
    ("b loop depth 200 width 25", || body(|| nest(Holder::Loop, 200, 25))),
    ("b loop depth 200 width 250", || body(|| nest(Holder::Loop, 200, 250))),
    ("b loop depth 200 width 2500", || body(|| nest(Holder::Loop, 200, 2500))),
    ("b mix depth 200 width 2", || body(|| nest(Holder::Mix, 200, 2))),
    ("b mix depth 200 width 25", || body(|| nest(Holder::Mix, 200, 25))),
    ("b mix depth 200 width 250", || body(|| nest(Holder::Mix, 200, 250))),
    ("b mix depth 200 width 2500", || body(|| nest(Holder::Mix, 200, 2500))),
    ("c own 333 blocks of 10", || body(|| own_blocks(333))),
    ("c own 3333 blocks of 10", || body(|| own_blocks(3333))),
    ("c own 33333 blocks of 10", || body(|| own_blocks(33333))),
    ("c own 333333 blocks of 10", || body(|| own_blocks(333333))),
    ("c switch 10000", || body(|| switch(10_000, 1))),
    ("c switch 1000000", || body(|| switch(1_000_000, 1))),
    ("c scattered switch 1000", || body(|| switch(1_000, SCATTER))),
    ("c scattered switch 10000", || body(|| switch(10_000, SCATTER))),
    ("c scattered switch 100000", || body(|| switch(100_000, SCATTER))),
    ("c scattered switch 1000000", || body(|| switch(1_000_000, SCATTER))),
    ("d whole function", || alone(|| whole(1000))),
    ("d small after large", || after_large(|| mix(1000))),
    ("d first after large", || first_after_large(|| mix(1000))),
    ("d small alone", || alone(|| mix(1000))),
    ("d module of 10000 functions", || functions(|| mix(8), 10000)),
    ("d entry 32 varyings 100 globals", || entry(0, 32, 100, 2000)),
    ("d entry location 0", || entry(0, 1, 0, 2000)),
    ("d entry location 4294967295", || entry(u32::MAX, 1, 0, 10)),
];

/// The median and the fastest.
fn middle_and_least(mut times: Vec<u128>) -> (u128, u128) {
    times.sort();
    (times[times.len() / 2], times[0])
}

fn print(name: &str, timed: Timed) {
    let Timed { statements, expressions, whole, lower } = timed;
    let count = whole.len();
    let (median, fastest) = middle_and_least(whole);
    let (lower_median, lower_fastest) = middle_and_least(lower);
    let own = |time: u128, lower: u128| (time as f64 - lower as f64) / statements as f64;
    println!(
        "{name:<34} {statements:>7} {expressions:>7} {median:>10} {fastest:>10} {lower_median:>9} {lower_fastest:>9} {:>11.1} {:>11.1} {count:>5}",
        own(median, lower_median),
        own(fastest, lower_fastest)
    );
}

fn main() {
    let prefix = std::env::args().nth(1).unwrap_or_default();
    for (name, run) in CASES {
        if name.starts_with(&prefix) {
            print(name, run());
        }
    }
}
