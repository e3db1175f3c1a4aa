//! What the functions answer. Each type keeps the number as the engine gave it, so that a comparison sees every bit.

/// How a call ended.
#[derive(Clone, Copy, Debug, PartialEq, Eq, Hash)]
pub enum Word {
    /// Nothing is left to fire, and every live token is a result. Also the word of bounds and of an expression's graph.
    Completed,
    /// Nothing is left to fire, and a token waits.
    Hung,
    /// The budget is used up, and an activity could still fire.
    Spent,
    /// The number of the refusal.
    Refused(u16),
}

impl Word {
    pub const COMPLETED: u16 = 0;
    pub const SPENT: u16 = 100;
    pub const HUNG: u16 = 101;

    pub fn of(number: u16) -> Word {
        match number {
            Word::COMPLETED => Word::Completed,
            Word::SPENT => Word::Spent,
            Word::HUNG => Word::Hung,
            number => Word::Refused(number),
        }
    }
}

/// The answer of a run: 16 bits each, lowest first, of word, firings, tokens and place.
#[derive(Clone, Copy, Debug, PartialEq, Eq, Hash)]
pub struct Answer(pub u64);

impl Answer {
    /// The answer of these four numbers.
    pub fn of(word: u16, firings: u16, tokens: u16, place: u16) -> Answer {
        let part = |number: u16, at: u32| u64::from(number) << (16 * at);
        Answer(part(word, 0) | part(firings, 1) | part(tokens, 2) | part(place, 3))
    }

    /// Word, firings, tokens and place as numbers.
    pub fn parts(self) -> (u16, u16, u16, u16) {
        let part = |at: u32| (self.0 >> (16 * at)) as u16;
        (part(0), part(1), part(2), part(3))
    }

    pub fn word(self) -> Word {
        Word::of(self.parts().0)
    }

    pub fn firings(self) -> usize {
        usize::from(self.parts().1)
    }

    pub fn tokens(self) -> usize {
        usize::from(self.parts().2)
    }

    pub fn place(self) -> usize {
        usize::from(self.parts().3)
    }
}

/// The value of an expression: 16 bits of the word, 32 of the value, 16 of the place.
#[derive(Clone, Copy, Debug, PartialEq, Eq, Hash)]
pub struct Value(pub u64);

impl Value {
    pub fn word(self) -> Word {
        Answer(self.0).word()
    }

    pub fn value(self) -> i32 {
        (self.0 >> 16) as i32
    }

    pub fn place(self) -> usize {
        Answer(self.0).place()
    }
}

/// What `held` answers: 16 bits each, lowest first, of word, activities held back, enabled activities and place.
#[derive(Clone, Copy, Debug, PartialEq, Eq, Hash)]
pub struct Held(pub u64);

impl Held {
    /// Completed if the state was taken, else the refusal.
    pub fn word(self) -> Word {
        Answer(self.0).word()
    }

    /// The activities that the bound holds back.
    pub fn held(self) -> usize {
        Answer(self.0).firings()
    }

    /// All that are enabled, held back or not.
    pub fn enabled(self) -> usize {
        Answer(self.0).tokens()
    }

    pub fn place(self) -> usize {
        Answer(self.0).place()
    }
}

/// What `serves` answers: 1 if what was kept serves, and 0 if not.
#[derive(Clone, Copy, Debug, PartialEq, Eq, Hash)]
pub struct Served(pub u64);

impl Served {
    pub fn is_yes(self) -> bool {
        self.0 == 1
    }
}

/// What `list` and `convert` answer: 0, or the refusal, with nothing written.
#[derive(Clone, Copy, Debug, PartialEq, Eq, Hash)]
pub struct Copied(pub u64);

impl Copied {
    pub fn is_done(self) -> bool {
        self.0 == 0
    }
}

/// What `print` answers: the number of bytes, or why it wrote none.
#[derive(Clone, Copy, Debug, PartialEq, Eq, Hash)]
pub struct Printed(pub u64);

#[derive(Clone, Copy, Debug, PartialEq, Eq, Hash)]
pub enum NotPrinted {
    /// The text does not fit.
    TooSmall,
    /// The number is no answer's.
    NoAnswer,
}

impl Printed {
    pub const TOO_SMALL: Printed = Printed(0);
    pub const NO_ANSWER: Printed = Printed(1);

    pub fn length(self) -> Result<usize, NotPrinted> {
        match self {
            Printed::TOO_SMALL => Err(NotPrinted::TooSmall),
            Printed::NO_ANSWER => Err(NotPrinted::NoAnswer),
            Printed(length) => Ok(length as usize),
        }
    }
}
