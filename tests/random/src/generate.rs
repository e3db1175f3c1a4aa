//! Valid graphs: expressions, conditionals, loops, calls and I-structure cells,
//! composed at random. A `Source` is what one port is still to receive: an input
//! token, or an arc or more whose destination is not drawn yet.

use crate::prng::Prng;
use crate::records::*;

/// What the tokens of a source have in common: tokens of two sources meet only if
/// their contexts are equal.
#[derive(Clone, Copy, PartialEq, Eq)]
pub struct Context {
    call: usize,
    iteration: usize,
}

const ROOT: Context = Context {
    call: 0,
    iteration: 0,
};

#[derive(Clone)]
enum Origin {
    Input(i32),
    /// The instruction and the number of its destination.
    Arc(u16, usize),
}

/// What one port is still to receive.
#[derive(Clone)]
pub struct Source {
    origins: Vec<Origin>,
    context: Context,
}

/// A function: the instruction that takes each argument, and the number of its
/// results, which come by LEAVE constants from 0 on.
#[derive(Clone)]
struct Function {
    entries: Vec<u16>,
    results: usize,
    levels: usize,
}

/// How large and how deep a generated graph gets.
#[derive(Clone, Copy)]
pub struct Size {
    pub steps: usize,
    pub passes: i32,
    /// Without NEXT, ENTER and LEAVE.
    pub loop_free: bool,
}

pub struct Generator<'a> {
    pub prng: &'a mut Prng,
    pub draft: Draft,
    size: Size,
    pool: Vec<Source>,
    functions: Vec<Function>,
    calls: usize,
    sites: i32,
    cells: i32,
    unwritten: Vec<i32>,
    /// Whether cells are often reached by the name of an array.
    named: bool,
}

/// No step is made past this, so that each source left over can get its OUT or SINK.
const MOST_INSTRUCTIONS: usize = 150;

impl<'a> Generator<'a> {
    pub fn new(prng: &'a mut Prng, size: Size) -> Generator<'a> {
        let named = prng.one_in(2);
        Generator {
            prng,
            named,
            draft: Draft::default(),
            size,
            pool: Vec::new(),
            functions: Vec::new(),
            calls: 0,
            sites: 0,
            cells: 0,
            unwritten: Vec::new(),
        }
    }

    /// A graph of random steps; answers the number of cells it uses.
    pub fn graph(&mut self) -> usize {
        if self.prng.one_in(12) {
            // Cells up to the last one that can be lent, and past it.
            self.cells = self.prng.between(980, 1020);
        }
        for _ in 0..1 + self.prng.below(4) {
            let source = self.input();
            self.pool.push(source);
        }
        let steps = 1 + self.prng.below(self.size.steps);
        self.grow(steps, 0);
        self.finish();
        for (first, length) in &mut self.draft.arrays {
            *length = (*length).min(self.cells as u16 - *first);
        }
        self.cells as usize
    }

    /// Connects all open sources and writes most cells that are only read so far.
    pub fn finish(&mut self) {
        for cell in std::mem::take(&mut self.unwritten) {
            if !self.prng.one_in(6) {
                let value = self.input();
                self.store_value(cell, value, 0);
            }
        }
        for source in std::mem::take(&mut self.pool) {
            self.end(source);
        }
        if !self.functions.is_empty() && self.prng.one_in(4) {
            let number = self.prng.below(self.functions.len());
            for entry in self.functions[number].entries.clone() {
                self.run_by_itself(entry);
            }
        }
    }

    /// An argument of a function comes as an input, so that its results come to a
    /// LEAVE of the root.
    fn run_by_itself(&mut self, entry: u16) {
        let argument = self.prng.between(0, 4);
        self.draft.inputs.push((entry, 0, argument));
    }

    /// The sources of the pool from the given number on are those of the current
    /// code block; the steps take and give only these.
    fn grow(&mut self, steps: usize, base: usize) {
        for _ in 0..steps {
            if self.draft.instructions.len() > MOST_INSTRUCTIONS || self.pool.len() <= base {
                return;
            }
            match self.prng.below(30) {
                11 | 23..=27 | 29 if self.size.loop_free => self.immediate(base),
                0..=4 => self.immediate(base),
                5..=8 => self.binary(base),
                9 | 10 => self.unary(base, COPY),
                11 => self.unary(base, NEXT),
                12 => self.constant(base),
                13 => self.gate(base),
                14 | 15 => self.switch(base),
                16 | 17 => self.conditional(base),
                18 | 19 => self.fetch(base),
                20..=22 => self.store(base),
                23 | 24 => self.call(base),
                25 => self.recursion(base),
                26 | 27 => self.count_loop(base),
                28 => self.pointers(base),
                29 if self.prng.one_in(12) => self.endless(base),
                _ => {
                    let source = self.take(base);
                    self.end(source);
                }
            }
        }
    }

    pub fn value(&mut self) -> i32 {
        match self.prng.below(40) {
            0 => i32::MIN,
            1 => i32::MAX,
            2 => self.prng.word() as i32,
            _ => self.prng.between(-9, 20),
        }
    }

    pub fn input(&mut self) -> Source {
        let value = self.value();
        self.input_of(value)
    }

    fn input_of(&self, value: i32) -> Source {
        Source {
            origins: vec![Origin::Input(value)],
            context: ROOT,
        }
    }

    fn output(&self, instruction: u16, destination: usize, context: Context) -> Source {
        Source {
            origins: vec![Origin::Arc(instruction, destination)],
            context,
        }
    }

    /// Draws all origins of a source to one port.
    fn connect(&mut self, source: Source, to: u16, port: u8) {
        for origin in source.origins {
            match origin {
                Origin::Input(value) => self.draft.inputs.push((to, port, value)),
                Origin::Arc(from, destination) => self.draft.arc(from, destination, to, port),
            }
        }
    }

    /// Ends a source at OUT or SINK, or at the root now and then at LEAVE, which is a
    /// result there.
    fn end(&mut self, source: Source) {
        let root = source.context.call == ROOT.call && !self.size.loop_free;
        let (code, constant) = match self.prng.below(8) {
            0 | 1 => (SINK, 0),
            2 if root => (LEAVE, self.prng.between(0, 255)),
            _ => (OUT, 0),
        };
        let end = self.draft.add(code, 0, constant);
        self.connect(source, end, 0);
    }

    fn take(&mut self, base: usize) -> Source {
        let number = base + self.prng.below(self.pool.len() - base);
        self.pool.swap_remove(number)
    }

    /// Two sources whose tokens meet, or seldom two that don't.
    fn take_two(&mut self, base: usize) -> (Source, Source) {
        let first = self.take(base);
        let strict = !self.prng.one_in(30);
        let candidates: Vec<usize> = (base..self.pool.len())
            .filter(|&n| !strict || self.pool[n].context == first.context)
            .collect();
        if !candidates.is_empty() {
            let number = candidates[self.prng.below(candidates.len())];
            return (first, self.pool.swap_remove(number));
        }
        if first.context == ROOT {
            return (first, self.input());
        }
        self.copy(first)
    }

    /// Both outputs of a COPY.
    fn copy(&mut self, source: Source) -> (Source, Source) {
        let context = source.context;
        let copy = self.draft.add(COPY, 2, 0);
        self.connect(source, copy, 0);
        (self.output(copy, 0, context), self.output(copy, 1, context))
    }

    /// As many copies of a source as asked for, one at least.
    fn copies(&mut self, source: Source, count: usize) -> Vec<Source> {
        let mut sources = vec![source];
        while sources.len() < count {
            let last = sources.remove(0);
            let (first, second) = self.copy(last);
            sources.extend([first, second]);
        }
        sources
    }

    /// An instruction over the sources of its ports; its output sources.
    fn instruction(
        &mut self,
        code: u8,
        fan_out: usize,
        constant: i32,
        ports: Vec<Source>,
    ) -> Vec<Source> {
        let context = ports[0].context;
        let number = self.draft.add(code, fan_out, constant);
        for (port, source) in ports.into_iter().enumerate() {
            self.connect(source, number, port as u8);
        }
        (0..fan_out)
            .map(|d| self.output(number, d, context))
            .collect()
    }

    /// The only output of an instruction.
    fn one(&mut self, code: u8, constant: i32, ports: Vec<Source>) -> Source {
        self.instruction(code, 1, constant, ports).remove(0)
    }

    fn fan_out(&mut self) -> usize {
        1 + usize::from(self.prng.one_in(3))
    }

    fn arithmetic_code(&mut self) -> u8 {
        // ADD, SUB and the comparisons never fail on small operands.
        const CODES: [u8; 12] = [ADD, ADD, SUB, SUB, MUL, DIV, REM, LT, LE, EQ, LT, EQ];
        CODES[self.prng.below(CODES.len())]
    }

    fn immediate(&mut self, base: usize) {
        let code = self.arithmetic_code();
        let mut constant = self.value();
        if constant == 0 && !self.prng.one_in(20) {
            constant = 3;
        }
        let source = self.take(base);
        let fan_out = self.fan_out();
        let outputs = self.instruction(code + WITH_CONSTANT, fan_out, constant, vec![source]);
        self.pool.extend(outputs);
    }

    fn binary(&mut self, base: usize) {
        let code = self.arithmetic_code();
        let (left, right) = self.take_two(base);
        let fan_out = self.fan_out();
        let outputs = self.instruction(code, fan_out, 0, vec![left, right]);
        self.pool.extend(outputs);
    }

    fn unary(&mut self, base: usize, code: u8) {
        let source = self.take(base);
        let fan_out = self.fan_out();
        let mut outputs = self.instruction(code, fan_out, 0, vec![source]);
        if code == NEXT {
            for output in &mut outputs {
                output.context.iteration += 1;
            }
        }
        self.pool.extend(outputs);
    }

    fn constant(&mut self, base: usize) {
        let constant = self.value();
        let source = self.take(base);
        let fan_out = self.fan_out();
        let outputs = self.instruction(CONST, fan_out, constant, vec![source]);
        self.pool.extend(outputs);
    }

    fn gate(&mut self, base: usize) {
        let (left, right) = self.take_two(base);
        let fan_out = self.fan_out();
        let outputs = self.instruction(GATE, fan_out, 0, vec![left, right]);
        self.pool.extend(outputs);
    }

    /// A SWITCH whose outputs are used apart, so that some sources carry no token.
    fn switch(&mut self, base: usize) {
        let (data, condition) = self.take_two(base);
        let outputs = self.instruction(SWITCH, 2, 0, vec![data, condition]);
        self.pool.extend(outputs);
    }

    /// A conditional: both arms end at the same port.
    fn conditional(&mut self, base: usize) {
        let (data, condition) = self.take_two(base);
        let context = data.context;
        let constant = self.prng.between(-3, 9);
        let compared = self.one(LT + WITH_CONSTANT, constant, vec![condition]);
        let mut arms = self.instruction(SWITCH, 2, 0, vec![data, compared]);
        let mut origins = Vec::new();
        while let Some(mut arm) = arms.pop() {
            if self.prng.one_in(2) {
                let constant = self.prng.between(-3, 9);
                arm = self.one(ADD + WITH_CONSTANT, constant, vec![arm]);
            }
            origins.extend(arm.origins);
        }
        self.pool.push(Source { origins, context });
    }

    fn fetch(&mut self, base: usize) {
        let known = self.cells > 0 && self.prng.one_in(2);
        let cell = if known {
            self.prng.below(self.cells as usize) as i32
        } else {
            self.cells += 1;
            self.unwritten.push(self.cells - 1);
            self.cells - 1
        };
        let source = self.take(base);
        let fetched = self.fetch_cell(cell, source);
        self.pool.extend(fetched);
    }

    fn fetch_cell(&mut self, cell: i32, trigger: Source) -> Vec<Source> {
        let (name, index) = self.index_of(cell);
        let index = if self.prng.one_in(60) {
            self.value()
        } else {
            index
        };
        let address = self.one(CONST, index, vec![trigger]);
        let fan_out = self.fan_out();
        self.instruction(FETCH, fan_out, name, vec![address])
    }

    /// A constant of FETCH and STORE for these cells, and the operand that means the
    /// first of them: an array that has them and its index, or 0 and the cell's number.
    fn name(&mut self, first: i32, length: i32) -> (i32, i32) {
        if !self.named || self.prng.one_in(3) {
            return (0, first);
        }
        let has = |&(start, cells): &(u16, u16)| {
            i32::from(start) <= first && first + length <= i32::from(start) + i32::from(cells)
        };
        let mut known = self.draft.arrays.iter().position(has);
        if known.is_none() && self.draft.arrays.len() < second::MOST_ARRAYS {
            let before = self.prng.between(0, first.min(2));
            let cells = before + length + self.prng.between(0, 2);
            self.draft
                .arrays
                .push(((first - before) as u16, cells as u16));
            known = Some(self.draft.arrays.len() - 1);
        }
        match known {
            Some(number) => {
                let start = i32::from(self.draft.arrays[number].0);
                (number as i32 + 1, first - start + 1)
            }
            None => (0, first),
        }
    }

    /// A name for one cell and its index, now and then one next to the array's cells.
    fn index_of(&mut self, cell: i32) -> (i32, i32) {
        let (name, index) = self.name(cell, 1);
        if name > 0 && self.prng.one_in(20) {
            let length = i32::from(self.draft.arrays[name as usize - 1].1);
            return (name, [-1, 0, length + 1][self.prng.below(3)]);
        }
        (name, index)
    }

    fn store(&mut self, base: usize) {
        let again = self.cells > 0 && self.prng.one_in(15);
        let cell = match self.unwritten.pop() {
            _ if again => self.prng.below(self.cells as usize) as i32,
            Some(cell) => cell,
            None => {
                self.cells += 1;
                self.cells - 1
            }
        };
        let source = self.take(base);
        let fan_out = self.prng.below(3);
        self.store_value(cell, source, fan_out);
    }

    fn store_value(&mut self, cell: i32, value: Source, fan_out: usize) {
        let (trigger, value) = self.copy(value);
        let (name, index) = self.index_of(cell);
        let address = self.one(CONST, index, vec![trigger]);
        let signals = self.instruction(STORE, fan_out, name, vec![address, value]);
        self.pool.extend(signals);
    }

    /// A chain of deferred reads: each cell has the number of the next one, which
    /// is fetched in turn; the stores come in any order.
    fn pointers(&mut self, base: usize) {
        let source = self.take(base);
        let length = 2 + self.prng.below(4);
        let first = self.cells;
        self.cells += length as i32;
        let (name, index) = self.name(first, length as i32);
        let mut value = self.one(CONST, index, vec![source]);
        for _ in 0..length {
            value = self.one(FETCH, name, vec![value]);
        }
        self.pool.push(value);
        for step in 0..length as i32 {
            let next = self.input_of(index + step + 1);
            self.store_value(first + step, next, 0);
        }
    }

    fn new_context(&mut self) -> Context {
        self.calls += 1;
        Context {
            call: self.calls,
            iteration: 0,
        }
    }

    /// A call of a new function or of one that is there already.
    fn call(&mut self, base: usize) {
        if self.sites >= 200 {
            return;
        }
        let known = !self.functions.is_empty() && self.prng.one_in(2);
        let function = if known {
            self.functions[self.prng.below(self.functions.len())].clone()
        } else {
            self.function()
        };
        let (first, second) = self.take_two(base);
        let mut arguments = vec![first];
        if function.entries.len() == 2 {
            arguments.push(second);
        } else {
            self.pool.push(second);
        }
        let results = self.call_function(&function, arguments);
        self.pool.extend(results);
    }

    /// ENTERs of one new site, and the return instructions side by side.
    fn call_function(&mut self, function: &Function, arguments: Vec<Source>) -> Vec<Source> {
        self.sites += 1;
        // An odd factor gives every site once, and half of all paths of four or of eight levels
        // have their uppermost bit set.
        let site = self.sites * 37 % 256;
        let context = arguments[0].context;
        let first = self.draft.instructions.len() as u16;
        let mut results = Vec::new();
        for number in 0..function.results {
            let landing = self.draft.add(COPY, 1, 0);
            self.draft.instructions[usize::from(landing)].adjacent = number > 0;
            results.push(self.output(landing, 0, context));
        }
        for (argument, &entry) in arguments.into_iter().zip(&function.entries) {
            let enter = self.draft.add(ENTER, 2, site);
            self.draft.arc(enter, 0, entry, 0);
            self.draft.arc(enter, 1, first, 0);
            self.connect(argument, enter, 0);
        }
        results
    }

    /// A function of one or two arguments with one or two results.
    fn function(&mut self) -> Function {
        let context = self.new_context();
        let base = self.pool.len();
        let mut entries = Vec::new();
        for _ in 0..1 + self.prng.below(2) {
            let entry = self.draft.add(COPY, 1, 0);
            self.pool.push(self.output(entry, 0, context));
            entries.push(entry);
        }
        let steps = self.prng.below(4);
        let levels = self.body(steps, base);
        let mut results = 0;
        for source in self.pool.split_off(base) {
            if results < 2 && source.context.call == context.call {
                let far = self.prng.one_in(20);
                let constant = if far {
                    self.prng.between(0, 255)
                } else {
                    results as i32
                };
                let leave = self.draft.add(LEAVE, 0, constant);
                self.connect(source, leave, 0);
                results += 1;
            } else {
                self.end(source);
            }
        }
        let function = Function {
            entries,
            results: results.max(1),
            levels,
        };
        if levels < 7 {
            self.functions.push(function.clone());
        }
        function
    }

    /// The steps of a function's body, which may call functions that need few
    /// levels; answers the levels that a call of the body needs.
    fn body(&mut self, steps: usize, base: usize) -> usize {
        let outside = self.functions.clone();
        let nested = self.prng.one_in(3);
        let levels = outside.iter().map(|f| f.levels).max().unwrap_or(0);
        if nested && levels < 7 {
            self.grow(steps, base);
        } else {
            for _ in 0..steps {
                if self.pool.len() > base {
                    match self.prng.below(4) {
                        0 => self.binary(base),
                        1 => self.conditional(base),
                        2 => self.count_loop(base),
                        _ => self.immediate(base),
                    }
                }
            }
        }
        1 + self.functions.iter().map(|f| f.levels).max().unwrap_or(0)
    }

    /// f(n) is a constant if n <= 0, else f(n - 1) plus or times n. Called from the
    /// root, it is too deep for n above 7.
    fn recursion(&mut self, base: usize) {
        if self.sites >= 200 {
            return;
        }
        let context = self.new_context();
        let entry = self.draft.add(COPY, 2, 0);
        let (n, tested) = (
            self.output(entry, 0, context),
            self.output(entry, 1, context),
        );
        let test = self.one(LE + WITH_CONSTANT, 0, vec![tested]);
        let mut arms = self.instruction(SWITCH, 2, 0, vec![n, test]);
        let (deeper, flat) = (arms.remove(1), arms.remove(0));
        let start = self.prng.between(0, 4);
        let bottom = self.one(CONST, start, vec![flat]);
        let (kept, lowered) = self.copy(deeper);
        let lowered = self.one(SUB + WITH_CONSTANT, 1, vec![lowered]);
        let function = Function {
            entries: vec![entry],
            results: 1,
            levels: 1,
        };
        let returned = self.call_function(&function, vec![lowered]).remove(0);
        let code = if self.prng.one_in(2) { ADD } else { MUL };
        let result = self.one(code, 0, vec![returned, kept]);
        let origins = [bottom.origins, result.origins].concat();
        let leave = self.draft.add(LEAVE, 0, 0);
        self.connect(Source { origins, context }, leave, 0);
        if self.prng.one_in(4) {
            self.run_by_itself(entry);
        }
        let source = self.take(base);
        let depth = self.depth();
        let argument = self.one(CONST, depth, vec![source]);
        let results = self.call_function(&function, vec![argument]);
        self.pool.extend(results);
    }

    /// A depth for a recursion, now and then one too deep.
    fn depth(&mut self) -> i32 {
        if self.prng.one_in(8) {
            8
        } else {
            self.prng.between(0, 7)
        }
    }

    /// A loop with an index and a sum, both circulating through NEXT.
    fn count_loop(&mut self, base: usize) {
        let source = self.take(base);
        let context = source.context;
        let passes = self.prng.between(0, self.size.passes);
        let (first, second) = self.copy(source);
        let start = self.one(CONST, 0, vec![first]);
        let index = self.draft.add(COPY, 2, 0);
        self.connect(start, index, 0);
        let sum = self.draft.add(COPY, 1, 0);
        self.connect(second, sum, 0);
        let tested = self.output(index, 0, context);
        let test = self.one(LT + WITH_CONSTANT, passes, vec![tested]);
        let (first_test, second_test) = self.copy(test);
        let index_source = self.output(index, 1, context);
        let sum_source = self.output(sum, 0, context);
        let mut index_arms = self.instruction(SWITCH, 2, 0, vec![index_source, first_test]);
        let mut sum_arms = self.instruction(SWITCH, 2, 0, vec![sum_source, second_test]);
        let (index_exit, sum_exit) = (index_arms.remove(1), sum_arms.remove(1));
        let (i, s) = self.loop_body(index_arms.remove(0), sum_arms.remove(0), passes);
        self.repeat(i, index);
        self.repeat(s, sum);
        // Both leave at the same iteration, which no other source is known to have.
        self.calls += 1;
        let exit = Context {
            call: context.call,
            iteration: 1000 + self.calls,
        };
        for source in [index_exit, sum_exit] {
            self.pool.push(Source {
                context: exit,
                ..source
            });
        }
    }

    /// A NEXT that feeds itself until iteration 255.
    fn endless(&mut self, base: usize) {
        let source = self.take(base);
        let next = self.draft.add(NEXT, 1, 0);
        self.draft.arc(next, 0, next, 0);
        self.connect(source, next, 0);
    }

    fn repeat(&mut self, source: Source, entry: u16) {
        let next = self.one(NEXT, 0, vec![source]);
        // Seldom a variable gets a second NEXT, so that its tokens miss the other's.
        let next = if self.prng.one_in(80) {
            self.one(NEXT, 0, vec![next])
        } else {
            next
        };
        self.connect(next, entry, 0);
    }

    /// The next index and the next sum of a loop.
    fn loop_body(&mut self, index: Source, sum: Source, passes: i32) -> (Source, Source) {
        let mut sources = self.copies(index, 2);
        let other = sources.remove(1);
        let next = self.one(ADD + WITH_CONSTANT, 1, vec![sources.remove(0)]);
        let term = match self.prng.below(4) {
            0 => self.through_cell(other, passes),
            1 if self.sites < 200 && !self.functions.is_empty() => self.through_call(other),
            2 => {
                let constant = self.prng.between(1, 9);
                self.one(REM + WITH_CONSTANT, constant, vec![other])
            }
            _ => other,
        };
        let code = if self.prng.one_in(8) { MUL } else { ADD };
        let sum = self.one(code, 0, vec![sum, term]);
        (next, sum)
    }

    /// Stores the index in a cell of its own and fetches the cell of this pass or,
    /// deferred or not, of the opposite one.
    fn through_cell(&mut self, index: Source, passes: i32) -> Source {
        let first = self.cells;
        self.cells += passes.max(1);
        let (name, first) = self.name(first, passes.max(1));
        let mut sources = self.copies(index, 3);
        let address = self.one(ADD + WITH_CONSTANT, first, vec![sources.remove(0)]);
        let value = self.one(MUL + WITH_CONSTANT, 3, vec![sources.remove(0)]);
        self.instruction(STORE, 0, name, vec![address, value]);
        let index = sources.remove(0);
        let read = if self.prng.one_in(2) {
            let negated = self.one(MUL + WITH_CONSTANT, -1, vec![index]);
            self.one(ADD + WITH_CONSTANT, first + passes - 1, vec![negated])
        } else {
            self.one(ADD + WITH_CONSTANT, first, vec![index])
        };
        self.one(FETCH, name, vec![read])
    }

    /// A call inside the loop: the path has the iteration of its pass.
    fn through_call(&mut self, argument: Source) -> Source {
        let number = self.prng.below(self.functions.len());
        let function = self.functions[number].clone();
        let mut arguments = self.copies(argument, function.entries.len());
        arguments.truncate(function.entries.len());
        let mut results = self.call_function(&function, arguments);
        let first = results.remove(0);
        for result in results {
            self.end(result);
        }
        first
    }
}
