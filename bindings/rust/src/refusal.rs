//! The refusals of documents 01 and 02. Number 30, a file that is not opened, comes from a program only.
use core::fmt;

/// Why a call did not accept, with its number as its value.
#[derive(Clone, Copy, Debug, PartialEq, Eq, Hash, PartialOrd, Ord)]
#[repr(u32)]
pub enum Refusal {
    AreaShort = 1,
    TextLong = 2,
    NotUtf8 = 3,
    Nesting = 4,
    TextEnds = 5,
    Closing = 6,
    AtomOrList = 7,
    EmptyList = 8,
    Form = 9,
    Excess = 10,
    QuestionName = 11,
    Unknown = 12,
    Duplicate = 13,
    VariableAtTwoSorts = 14,
    SortOrArity = 15,
    BracketedConstant = 16,
    NoGoal = 17,
    Number = 18,
    StepOrder = 19,
    ReferenceCount = 20,
    Binding = 21,
    SecondConclusion = 22,
    Conclusion = 23,
    NoSuchStep = 24,
    Premise = 25,
    Unbound = 26,
    OtherJudgment = 27,
    StoreFull = 28,
    GoalOpen = 29,
    /// From calls that write a text only, behind all others.
    OutputLong = 31,
}

/// Each refusal with its sentence, in the order of the numbers.
const SENTENCES: [(Refusal, &str); 30] = [
    (Refusal::AreaShort, "a work area has fewer than 16,384 words"),
    (Refusal::TextLong, "a text is longer than it may be"),
    (Refusal::NotUtf8, "a line is not UTF-8"),
    (Refusal::Nesting, "an item stands more than 256 lists deep"),
    (Refusal::TextEnds, "the text ends within a list"),
    (Refusal::Closing, "a closing bracket stands where an item is due"),
    (Refusal::AtomOrList, "an atom stands where a list is due, or a list where an atom is due"),
    (Refusal::EmptyList, "a list is empty"),
    (Refusal::Form, "no form has this head and length"),
    (Refusal::Excess, "something stands where a closing bracket is due"),
    (Refusal::QuestionName, "a name begins with `?` where it may not, or lacks it, or is `?` alone"),
    (Refusal::Unknown, "a name is unknown, or a goal is no longer open"),
    (Refusal::Duplicate, "a name is given twice"),
    (Refusal::VariableAtTwoSorts, "a variable of a rule stands at places of two sorts"),
    (Refusal::SortOrArity, "the number of arguments or a sort is wrong"),
    (Refusal::BracketedConstant, "a constructor without arguments stands in brackets"),
    (Refusal::NoGoal, "the goals text has no goal"),
    (Refusal::Number, "a number is not written as one, or is too large"),
    (Refusal::StepOrder, "a step has another number than the next"),
    (Refusal::ReferenceCount, "a step names more or fewer premises than its rule has"),
    (Refusal::Binding, "a variable is bound twice, or to a term of another sort"),
    (Refusal::SecondConclusion, "a step states a second conclusion"),
    (Refusal::Conclusion, "the stated conclusion is not one of the rule"),
    (Refusal::NoSuchStep, "there is no such step yet"),
    (Refusal::Premise, "a step named as premise concludes something else"),
    (Refusal::Unbound, "a variable of the conclusion is not bound"),
    (Refusal::OtherJudgment, "the step concludes another judgment than the goal asks for"),
    (Refusal::StoreFull, "the terms do not fit into the store"),
    (Refusal::GoalOpen, "a goal is left without a result"),
    (Refusal::OutputLong, "the text to be written is longer than the buffer"),
];

impl Refusal {
    /// Its number in document 01 or 02.
    pub fn number(self) -> u32 {
        self as u32
    }

    /// The refusal with this number: from 1 to 29, or 31.
    pub fn from_number(number: u32) -> Option<Self> {
        SENTENCES.iter().map(|&(refusal, _)| refusal).find(|refusal| refusal.number() == number)
    }

    /// What is refused, in a plain sentence.
    pub fn sentence(self) -> &'static str {
        SENTENCES.iter().find(|(refusal, _)| refusal.number() == self.number()).map_or("", |&(_, sentence)| sentence)
    }
}

impl fmt::Display for Refusal {
    fn fmt(&self, f: &mut fmt::Formatter<'_>) -> fmt::Result {
        write!(f, "refused, number {}: {}", self.number(), self.sentence())
    }
}

impl core::error::Error for Refusal {}

#[cfg(test)]
mod tests {
    use super::*;

    #[test]
    fn each_number_leads_back_to_its_refusal() {
        let mut last = 0;
        for (refusal, _) in SENTENCES {
            assert!(last < refusal.number());
            last = refusal.number();
            assert_eq!(Refusal::from_number(last), Some(refusal));
        }
        assert_eq!((SENTENCES.len(), last), (30, 31));
        assert_eq!([0, 30, 32, u32::MAX].map(Refusal::from_number), [None; 4]);
    }
}
