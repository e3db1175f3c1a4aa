//! A slow emulator of firings, into which an error can be put: it searches the
//! whole ledger for everything. What comes before the first firing is the second
//! emulator's.

use cases::apart::Wrong;
use cases::lent::*;
use cases::Left;
use layout::{signed, unsigned};
use second::{Answer, Outcome, Refusal};

#[derive(Clone, Copy, PartialEq)]
enum State {
    Live,
    Spent,
    Deferred,
}

#[derive(Clone, Copy)]
struct Arrived {
    path: u128,
    iteration: u8,
    instruction: u16,
    port: u8,
    value: i32,
    state: State,
}

impl Arrived {
    fn tag(&self) -> (u128, u8, u16) {
        (self.path, self.iteration, self.instruction)
    }

    fn same_key(&self, other: &Arrived) -> bool {
        self.tag() == other.tag() && self.port == other.port
    }

    fn record(&self) -> [u8; TOKEN_RECORD] {
        let (tag, state) = (self.tag(), self.state as u8);
        layout::token(tag.0, tag.1, tag.2, self.port, self.value, state)
    }
}

#[derive(Clone, Copy, PartialEq)]
enum Cell {
    Absent,
    Waiting,
    Present(i32),
}

struct Machine<'a> {
    graph: &'a [u8],
    capacity: usize,
    tokens: Vec<Arrived>,
    cells: Vec<Cell>,
    wrong: Option<Wrong>,
}

/// Runs what is lent, with an error or none.
pub fn run(lent: &Lent, wrong: Option<Wrong>) -> Left {
    let start = cases::run(&lent.clone().budget(0));
    if start.answer.refused_at_once() {
        return start;
    }
    let graph = lent.graph.bytes();
    let mut machine = Machine {
        graph: &graph,
        capacity: start.ledger.len() / TOKEN_RECORD,
        tokens: inputs(&lent.inputs.bytes()),
        cells: vec![Cell::Absent; start.cells.len() / CELL_RECORD],
        wrong,
    };
    let answer = machine.run(&lent.picks.bytes(), usize::from(lent.budget));
    let mut left = Left { answer, ..start };
    for (record, arrived) in left.ledger.chunks_mut(TOKEN_RECORD).zip(&machine.tokens) {
        record.copy_from_slice(&arrived.record());
    }
    for (record, held) in left.cells.chunks_mut(CELL_RECORD).zip(&machine.cells) {
        record.copy_from_slice(&match held {
            Cell::Absent => cell(0, cell::ABSENT),
            Cell::Waiting => cell(0, cell::WAITING),
            Cell::Present(value) => present(*value),
        });
    }
    left
}

fn inputs(bytes: &[u8]) -> Vec<Arrived> {
    let input = |record: &[u8]| Arrived {
        path: 0,
        iteration: 0,
        instruction: unsigned(record, token::INSTRUCTION),
        port: record[token::PORT],
        value: signed(record, token::VALUE),
        state: State::Live,
    };
    bytes.chunks(TOKEN_RECORD).map(input).collect()
}

impl Machine<'_> {
    fn run(&mut self, picks: &[u8], budget: usize) -> Answer {
        let mut firings = 0;
        let outcome = loop {
            let enabled = self.enabled();
            if self.wrong == Some(Wrong::SpentBeforeHung) && firings == budget {
                break Outcome::Spent;
            }
            if enabled.is_empty() {
                break self.rest();
            }
            if firings == budget {
                break Outcome::Spent;
            }
            let pick = match picks.get(2 * firings..2 * firings + 2) {
                Some(pick) => usize::from(u16::from_le_bytes([pick[0], pick[1]])),
                None => 0,
            };
            let place = enabled[pick % enabled.len()];
            if let Err(number) = self.fire(place) {
                break Outcome::Refused(Refusal { number, place });
            }
            firings += 1;
        };
        Answer {
            outcome,
            firings,
            tokens: self.tokens.len(),
        }
    }

    /// How a run with nothing enabled ends.
    fn rest(&self) -> Outcome {
        let improper = |t: &Arrived| match t.state {
            State::Live => {
                let counts = t.path == 0 && self.wrong == Some(Wrong::RootLeaveNotProper);
                !self.is_result(t) && self.wrong != Some(Wrong::OperandIsProper)
                    || counts && self.code(t) == LEAVE
            }
            State::Spent => false,
            State::Deferred => self.wrong != Some(Wrong::DeferredIsProper),
        };
        let hung = self.tokens.iter().any(improper);
        if hung && self.wrong != Some(Wrong::HungAsCompleted) {
            Outcome::Hung
        } else {
            Outcome::Completed
        }
    }

    /// A token at an OUT, or at a LEAVE under path 0.
    fn is_result(&self, arrived: &Arrived) -> bool {
        match self.code(arrived) {
            OUT => true,
            LEAVE => arrived.path == 0 || self.wrong == Some(Wrong::LeaveIsResult),
            _ => false,
        }
    }

    fn record(&self, instruction: u16) -> &[u8] {
        &self.graph[GRAPH_RECORD * usize::from(instruction)..][..GRAPH_RECORD]
    }

    fn code(&self, arrived: &Arrived) -> u8 {
        self.record(arrived.instruction)[instruction::CODE]
    }

    /// The other operand of a token, if its instruction has two and it is live.
    fn partner(&self, arrived: &Arrived) -> Option<usize> {
        let other = |t: &Arrived| t.tag() == arrived.tag() && t.port != arrived.port;
        self.tokens
            .iter()
            .position(|t| other(t) && t.state == State::Live)
    }

    /// The places of the enabled, in order.
    fn enabled(&self) -> Vec<usize> {
        let mut places = Vec::new();
        for (position, arrived) in self.tokens.iter().enumerate() {
            let code = self.code(arrived);
            let fires = code == LEAVE && self.wrong == Some(Wrong::RootLeaveEnabled);
            if arrived.state != State::Live || self.is_result(arrived) && !fires {
                continue;
            }
            if second::operand_count(code) == 1 {
                places.push(position);
            } else if let Some(partner) = self.partner(arrived) {
                if position < partner || self.wrong == Some(Wrong::CountsTwice) {
                    places.push(position.min(partner));
                }
            }
        }
        places
    }

    fn fire(&mut self, place: usize) -> Result<(), u8> {
        let first = self.tokens[place];
        let mut operands = vec![place];
        if second::operand_count(self.code(&first)) == 2 {
            operands.push(self.partner(&first).expect("it is enabled"));
        }
        operands.sort_by_key(|&position| self.tokens[position].port);
        let before = (self.tokens.clone(), self.cells.clone());
        for &position in &operands {
            self.tokens[position].state = State::Spent;
        }
        let left = self.tokens[operands[0]];
        let right = operands
            .get(1)
            .map_or(0, |&position| self.tokens[position].value);
        let done = self.effect(left, right);
        if done.is_err() {
            let spent = self.tokens.clone();
            (self.tokens, self.cells) = before;
            if self.wrong == Some(Wrong::RefusedSpends) {
                for &position in &operands {
                    self.tokens[position] = spent[position];
                }
            }
        }
        done
    }

    /// What an activity does: the left operand has its tag.
    fn effect(&mut self, left: Arrived, right: i32) -> Result<(), u8> {
        let record = self.record(left.instruction).to_vec();
        let constant = signed(&record, instruction::CONSTANT);
        let value = left.value;
        match record[instruction::CODE] {
            COPY | GATE => self.send(&record, left, value),
            SINK => Ok(()),
            CONST => self.send(&record, left, constant),
            SWITCH => {
                let chosen = usize::from(right == 0);
                self.append(&[destination(&record, chosen, left, value)])
            }
            NEXT => {
                let iteration = left.iteration.checked_add(1).ok_or(13)?;
                self.send(&record, Arrived { iteration, ..left }, value)
            }
            ENTER if left.path >> 112 > 0 => Err(14),
            ENTER => {
                let path =
                    (left.path << 16) + ((constant as u128) << 8) + u128::from(left.iteration);
                let inner = Arrived {
                    path,
                    iteration: 0,
                    ..left
                };
                self.append(&[destination(&record, 0, inner, value)])
            }
            LEAVE => self.leave(left, constant),
            FETCH => self.fetch(&record, left),
            STORE => self.store(&record, left, right),
            code => {
                let right = if code < 32 { right } else { constant };
                let result = self
                    .arithmetic(code % 16, i64::from(value), i64::from(right))
                    .ok_or(12)?;
                self.send(&record, left, i32::try_from(result).map_err(|_| 12)?)
            }
        }
    }

    fn arithmetic(&self, number: u8, a: i64, b: i64) -> Option<i64> {
        let down = self.wrong == Some(Wrong::RoundsDown);
        let off = down && b != 0 && a % b != 0 && (a < 0) != (b < 0);
        Some(match number {
            0 => a + b,
            1 => a - b,
            2 => a * b,
            3 => a.checked_div(b)? - i64::from(off),
            4 => a.checked_rem(b)? + if off { b } else { 0 },
            5 => i64::from(a < b),
            6 => i64::from(a <= b),
            _ => i64::from(a == b),
        })
    }

    fn leave(&mut self, left: Arrived, constant: i32) -> Result<(), u8> {
        let (site, outer) = ((left.path >> 8) as u8, (left.path >> 24) as u8);
        let outer_taken = self.wrong == Some(Wrong::OuterSite) && outer != 0;
        let site = if outer_taken { outer } else { site };
        let enters =
            |r: &&[u8]| r[instruction::CODE] == ENTER && r[instruction::CONSTANT.start] == site;
        let enter = self.graph.chunks(GRAPH_RECORD).find(enters).ok_or(17)?;
        let target = usize::from(unsigned(enter, instruction::target(1))) + constant as usize;
        if target >= self.graph.len() / GRAPH_RECORD {
            return Err(17);
        }
        self.append(&[Arrived {
            path: left.path >> 16,
            iteration: left.path as u8,
            instruction: target as u16,
            port: 0,
            value: left.value,
            state: State::Live,
        }])
    }

    fn cell(&self, value: i32) -> Result<usize, u8> {
        let number = usize::try_from(value).map_err(|_| 10)?;
        (number < self.cells.len()).then_some(number).ok_or(10)
    }

    fn fetch(&mut self, record: &[u8], left: Arrived) -> Result<(), u8> {
        let number = self.cell(left.value)?;
        if let Cell::Present(value) = self.cells[number] {
            return self.send(record, left, value);
        }
        let mut outputs = outputs(record, left, left.value);
        for output in &mut outputs {
            output.state = State::Deferred;
        }
        self.cells[number] = Cell::Waiting;
        self.append(&outputs)
    }

    fn store(&mut self, record: &[u8], left: Arrived, value: i32) -> Result<(), u8> {
        let number = self.cell(left.value)?;
        if let Cell::Present(_) = self.cells[number] {
            return Err(11);
        }
        self.cells[number] = Cell::Present(value);
        for position in 0..self.tokens.len() {
            let woken = self.tokens[position];
            if woken.state != State::Deferred || woken.value != left.value {
                continue;
            }
            let others = self.tokens.iter().filter(|t| t.same_key(&woken)).count();
            if others > 1 {
                return Err(9);
            }
            self.tokens[position].value = value;
            self.tokens[position].state = State::Live;
        }
        self.send(record, left, 0)
    }

    fn send(&mut self, record: &[u8], left: Arrived, value: i32) -> Result<(), u8> {
        self.append(&outputs(record, left, value))
    }

    /// 8, then 9, then the outputs are in the ledger.
    fn append(&mut self, outputs: &[Arrived]) -> Result<(), u8> {
        if self.tokens.len() + outputs.len() > self.capacity {
            return Err(8);
        }
        for output in outputs {
            if self.taken(output) {
                return Err(9);
            }
            self.tokens.push(*output);
        }
        Ok(())
    }

    fn taken(&self, output: &Arrived) -> bool {
        if self.wrong == Some(Wrong::DeferredAtWrite) && output.state == State::Deferred {
            return false;
        }
        let counts = |t: &Arrived| match self.wrong {
            Some(Wrong::SecondOnlyWhileLive) => t.state == State::Live,
            Some(Wrong::DeferredAtWrite) => t.state != State::Deferred,
            _ => true,
        };
        self.tokens.iter().any(|t| t.same_key(output) && counts(t))
    }
}

fn outputs(record: &[u8], left: Arrived, value: i32) -> Vec<Arrived> {
    (0..usize::from(record[instruction::FAN_OUT]))
        .map(|number| destination(record, number, left, value))
        .collect()
}

fn destination(record: &[u8], number: usize, left: Arrived, value: i32) -> Arrived {
    Arrived {
        port: record[instruction::port(number)],
        instruction: unsigned(record, instruction::target(number)),
        value,
        state: State::Live,
        ..left
    }
}
