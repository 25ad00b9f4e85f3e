//! Rules: which frames are kept.

use crate::error::Error;
use crate::frame::Frame;
use crate::library;
use crate::sys::FrameRule;
use std::error;
use std::fmt;

/// 1 to 64 rules, from words as the commands `select` and `filter` of the program have them (docs/FORMAT.md).
///
/// A frame is kept where there is a first rule that matches it, and it says keep.
///
/// ```
/// use feksroum::{Frame, Rules, RulesError, MAX_PAYLOAD};
///
/// let rules = Rules::new(["drop,channel=1-5,kind=body", "keep"])?;
/// let body = Frame::first(&[3, 0, 2, 0, 0, 0, 1, b'x', 206], MAX_PAYLOAD)?;
/// assert!(!rules.decide(&body)?);
/// assert_eq!(Rules::new(["keep,class=060"]), Err(RulesError::NoRule("keep,class=060".into())));
/// # Ok::<(), Box<dyn std::error::Error>>(())
/// ```
#[derive(Clone, PartialEq, Eq, Hash)]
pub struct Rules {
    words: Vec<String>,
    numbers: Vec<FrameRule>,
}

impl Rules {
    /// As many rules as the program takes.
    pub const MAX_COUNT: usize = 64;

    /// The rules that some words are.
    ///
    /// # Errors
    ///
    /// The first word that is no rule; how many there are, where that is not 1 to 64.
    pub fn new<I>(words: I) -> Result<Rules, RulesError>
    where
        I: IntoIterator,
        I::Item: Into<String>,
    {
        let words: Vec<String> = words.into_iter().map(Into::into).collect();
        if !(1..=Rules::MAX_COUNT).contains(&words.len()) {
            return Err(RulesError::Count(words.len()));
        }
        let numbers = words.iter().map(|word| numbers(word)).collect::<Result<_, _>>()?;
        Ok(Rules { words, numbers })
    }

    /// The words.
    #[must_use]
    pub fn words(&self) -> &[String] {
        &self.words
    }

    /// Whether a frame is kept.
    ///
    /// # Errors
    ///
    /// [`Error::Incompatible`] alone, where another version of the library is linked.
    pub fn decide(&self, frame: &Frame<'_>) -> Result<bool, Error> {
        let (class_id, method_id) = frame.fields().ids();
        match library::decide(&self.numbers, frame.frame_type() as u8, frame.channel(), class_id, method_id) {
            0 => Ok(false),
            1 => Ok(true),
            status => Err(Error::Incompatible(status.into())),
        }
    }
}

/// The numbers of a rule.
fn numbers(word: &str) -> Result<FrameRule, RulesError> {
    const BAD_ARGUMENT: u8 = 41;
    let rule = library::rule(word.as_bytes());
    match rule.status {
        0 => Ok(rule),
        BAD_ARGUMENT => Err(RulesError::NoRule(word.into())),
        status => Err(RulesError::Incompatible(status.into())),
    }
}

impl fmt::Debug for Rules {
    fn fmt(&self, f: &mut fmt::Formatter<'_>) -> fmt::Result {
        f.debug_tuple("Rules").field(&self.words).finish()
    }
}

impl fmt::Display for Rules {
    /// The words, with spaces between them.
    fn fmt(&self, f: &mut fmt::Formatter<'_>) -> fmt::Result {
        f.write_str(&self.words.join(" "))
    }
}

/// Why words are no rules.
#[derive(Clone, Debug, PartialEq, Eq, Hash)]
#[non_exhaustive]
pub enum RulesError {
    /// A word that is no rule.
    NoRule(String),
    /// So many words, which is not 1 to 64.
    Count(usize),
    /// The library answered with this status, which it does not have in this version of the crate.
    Incompatible(u32),
}

impl fmt::Display for RulesError {
    fn fmt(&self, f: &mut fmt::Formatter<'_>) -> fmt::Result {
        match self {
            RulesError::NoRule(word) => write!(f, "{word:?} is no rule"),
            RulesError::Count(count) => write!(f, "1 to {} rules are wanted, and {count} were given", Rules::MAX_COUNT),
            RulesError::Incompatible(status) => Error::Incompatible(*status).fmt(f),
        }
    }
}

impl error::Error for RulesError {}
