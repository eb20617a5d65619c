//! Where the steps went: what a step is counted as, by the node whose turn it is. Written from document 02's request U1.

use crate::node::Node;
use crate::tree::{Ml, Scheme};

/// What a step is counted as.
#[derive(Clone, Copy, Debug, PartialEq, Eq)]
pub enum Class {
    Call,
    Conversion,
    Other,
}

impl Class {
    pub const ALL: [Class; 3] = [Class::Call, Class::Conversion, Class::Other];

    pub fn name(self) -> &'static str {
        ["call", "conversion", "other"][self as usize]
    }

    /// "A step on an application or a fix is a call. A step on an ms or sm word is a conversion. All other steps, the
    /// error step too, are others."
    pub fn of(node: Node<'_>) -> Class {
        match node {
            Node::Ml(e) => match **e {
                Ml::Application(..) | Ml::Fix(_) => Class::Call,
                Ml::Ms(..) => Class::Conversion,
                _ => Class::Other,
            },
            Node::Scheme(e) => match **e {
                Scheme::Application(..) => Class::Call,
                Scheme::Sm(..) => Class::Conversion,
                _ => Class::Other,
            },
            Node::Type(_) => Class::Other,
        }
    }
}

/// "The result gains three counts: calls, conversions, others."
#[derive(Clone, Copy, Debug, Default, PartialEq, Eq)]
pub struct ClassCounts([u32; 3]);

impl ClassCounts {
    pub fn new(calls: u32, conversions: u32, others: u32) -> ClassCounts {
        ClassCounts([calls, conversions, others])
    }

    pub fn count(&mut self, class: Class) {
        self.0[class as usize] += 1;
    }

    pub fn of(&self, class: Class) -> u32 {
        self.0[class as usize]
    }

    /// Each with the other's added to it.
    pub fn added(&self, other: &ClassCounts) -> ClassCounts {
        ClassCounts([0, 1, 2].map(|class| self.0[class] + other.0[class]))
    }

    /// All three together.
    pub fn sum(&self) -> u32 {
        self.0.iter().sum()
    }
}
