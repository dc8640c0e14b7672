//! Refusals: a number, its name and its message.
use std::error::Error;
use std::fmt;

macro_rules! rules {
    ($($name:ident = $number:literal, $placed:literal, $message:literal;)*) => {
        /// Why a call refuses. The discriminant is the number.
        #[derive(Clone, Copy, PartialEq, Eq, Debug, Hash)]
        #[repr(u32)]
        #[non_exhaustive]
        pub enum Rule {
            $(#[doc = $message] $name = $number,)*
        }

        impl Rule {
            /// Every rule, by rising number.
            pub const ALL: &'static [Rule] = &[$(Rule::$name),*];

            /// The rule with this number; none for 0, which is done.
            ///
            /// # Panics
            /// On a number that no call answers.
            pub(crate) fn from_number(number: u32) -> Option<Rule> {
                match number {
                    0 => None,
                    $($number => Some(Rule::$name),)*
                    _ => unreachable!("no call answers {number}"),
                }
            }

            /// Its name.
            pub const fn name(self) -> &'static str {
                match self { $(Rule::$name => stringify!($name),)* }
            }

            /// What it says.
            pub const fn message(self) -> &'static str {
                match self { $(Rule::$name => $message,)* }
            }

            /// Whether a refusal by it has a place; otherwise the place is 0.
            pub const fn has_place(self) -> bool {
                match self { $(Rule::$name => $placed,)* }
            }
        }
    };
}

rules! {
    Count = 1, false, "the triangles are odd in number, under 2 or over 65,536, or V and O do not fit together";
    Room = 2, false, "an output, the work space or a table lent beside the input is too short";
    Letter = 3, true, "a letter outside C, L, E, R, S";
    Unfinished = 4, true, "the string ends inside a word";
    Extra = 5, true, "letters follow the first word";
    Pinch = 6, true, "a C stands before a word of width 2";
    Width = 7, false, "the width is not 2";
    Gate = 8, false, "the gate is no corner of the mesh";
    Vertex = 9, true, "a vertex number is not below the vertex count";
    Opposite = 10, true, "the opposite rule is broken at this corner";
    Edge = 11, true, "the ends of an edge disagree at this corner";
    Twice = 12, true, "a vertex stands twice in this triangle";
    Ring = 13, true, "this vertex is absent, or its corners are not one swing ring";
    Reach = 14, true, "this triangle is not reached from the gate's";
    Handle = 15, false, "the triangle count differs from 2v - 4";
    Line = 16, true, "a record line is malformed or missing, or bytes follow the last";
    Form = 17, false, "the form is not 1";
    Length = 18, false, "the length of sym differs from tri";
}

/// A refusal: the rule that was broken first, and where.
///
/// ```
/// let refusal = last::Refusal { rule: last::Rule::Width, place: 0 };
/// assert_eq!(refusal.to_string(), "7: the width is not 2");
/// assert_eq!((refusal.number(), refusal.rule.name()), (7, "Width"));
/// ```
#[derive(Clone, Copy, PartialEq, Eq, Debug, Hash)]
pub struct Refusal {
    pub rule: Rule,
    pub place: u32,
}

impl Refusal {
    /// The number of its rule.
    pub const fn number(self) -> u32 {
        self.rule as u32
    }
}

impl fmt::Display for Refusal {
    fn fmt(&self, f: &mut fmt::Formatter<'_>) -> fmt::Result {
        write!(f, "{}", self.number())?;
        if self.rule.has_place() {
            write!(f, " at {}", self.place)?;
        }
        write!(f, ": {}", self.rule.message())
    }
}

impl Error for Refusal {}
