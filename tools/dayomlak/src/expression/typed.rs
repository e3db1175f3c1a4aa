//! The typed graph of an expression, each line with the part of the text that it stands for.

use std::collections::HashSet;

use super::{one_line, Expression, Kind};

/// Words that a typed graph has for itself.
const RESERVED: [&str; 6] = ["input", "picks", "cell", "raw", "return", "site"];

/// The text of the graph, with inputs of these values, in the order of the variables.
pub fn text(expression: &Expression, values: &[i32]) -> String {
    let names = Names::of(expression);
    let lines = lines(expression, &names);
    let width = |column: fn(&[String; 3]) -> &String| {
        lines
            .iter()
            .map(|line| column(line).len())
            .max()
            .unwrap_or(0)
    };
    let (name_width, operation_width) = (width(|line| &line[0]), width(|line| &line[1]));
    let mut text = heading(expression);
    for [name, operation, part] in &lines {
        text += &format!("{name:name_width$} {operation:operation_width$}  # {part}\n");
    }
    text += "\n";
    for (name, value) in names.variables.iter().zip(values) {
        text += &format!("input {name}.0 = {value}\n");
    }
    text
}

fn heading(expression: &Expression) -> String {
    format!(
        "# {}\n#\n# Made by `dayomlak expression`: a COPY for each name and constant, then the\n\
         # operations, then OUT. Behind each line stands the part of the text that it is.\n\n",
        one_line(&expression.text)
    )
}

/// Name, operation with its arc, and part of the text, a line for each instruction.
fn lines(expression: &Expression, names: &Names) -> Vec<[String; 3]> {
    let mut lines = vec![Default::default(); expression.parts.len()];
    for (number, part) in expression.parts.iter().enumerate() {
        let operation = match part.kind {
            Kind::Operation(operator, ..) => operator.word(),
            Kind::Name(_) | Kind::Constant(_) => "COPY",
        };
        let instruction = expression.instruction(number);
        let target = target(expression, names, number);
        lines[instruction] = [
            format!("{}:", names.of_instruction(instruction)),
            format!("{operation} -> {target}"),
            expression.words(part),
        ];
    }
    let out = [
        format!("{}:", names.out),
        "OUT".to_string(),
        "the value".to_string(),
    ];
    lines.push(out);
    lines
}

/// Where a part's result goes: the left side of an operation has port 0.
fn target(expression: &Expression, names: &Names, part: usize) -> String {
    let user = expression.parts.iter().position(|user| match user.kind {
        Kind::Operation(_, left, right) => left == part || right == part,
        _ => false,
    });
    let Some(user) = user else {
        return format!("{}.0", names.out);
    };
    let port = match expression.parts[user].kind {
        Kind::Operation(_, left, _) => usize::from(left != part),
        _ => 0,
    };
    let name = names.of_instruction(expression.instruction(user));
    format!("{name}.{port}")
}

/// A name for every instruction, each once.
struct Names {
    variables: Vec<String>,
    operations: Vec<String>,
    out: String,
}

impl Names {
    fn of(expression: &Expression) -> Names {
        let mut taken = Taken::new(expression);
        let variables = expression.variables().map(|part| match &part.kind {
            Kind::Name(name) => taken.occurrence(name),
            Kind::Constant(value) if *value < 0 => {
                taken.free(&format!("minus_{}", value.unsigned_abs()))
            }
            Kind::Constant(value) => taken.free(&format!("n{value}")),
            Kind::Operation(operator, ..) => taken.free(operator.result()),
        });
        let variables: Vec<String> = variables.collect();
        let operations = expression.operations().map(|part| match part.kind {
            Kind::Operation(operator, ..) => taken.free(operator.result()),
            _ => taken.free("part"),
        });
        let operations: Vec<String> = operations.collect();
        Names {
            variables,
            operations,
            out: taken.free("value"),
        }
    }

    fn of_instruction(&self, number: usize) -> &str {
        let mut names = self.variables.iter().chain(&self.operations);
        names.nth(number).map_or("", String::as_str)
    }
}

/// The names given so far, and all those of the expression.
struct Taken {
    names: HashSet<String>,
    /// Names that occur once, and keep themselves.
    single: HashSet<String>,
}

impl Taken {
    fn new(expression: &Expression) -> Taken {
        let names = || {
            expression.variables().filter_map(|part| match &part.kind {
                Kind::Name(name) => Some(name),
                _ => None,
            })
        };
        let once = |name: &&String| {
            names().filter(|other| other == name).count() == 1 && !RESERVED.contains(&name.as_str())
        };
        let reserved = RESERVED.iter().map(|word| word.to_string());
        Taken {
            names: reserved.chain(names().cloned()).collect(),
            single: names().filter(once).cloned().collect(),
        }
    }

    /// The name of an occurrence: `a`, or `a_1`, `a_2` if there are several.
    fn occurrence(&mut self, name: &str) -> String {
        match self.single.contains(name) {
            true => name.to_string(),
            false => self.numbered(name, 1),
        }
    }

    /// A name that is wanted, or with a number if it is taken.
    fn free(&mut self, name: &str) -> String {
        match self.names.insert(name.to_string()) {
            true => name.to_string(),
            false => self.numbered(name, 2),
        }
    }

    /// The name with the first number, from this one on, that is free.
    fn numbered(&mut self, name: &str, first: usize) -> String {
        let mut number = first;
        loop {
            let numbered = format!("{name}_{number}");
            if self.names.insert(numbered.clone()) {
                return numbered;
            }
            number += 1;
        }
    }
}
