//! What is known of a method by its struct alone.

use crate::encode::{Encode, EncodeError};
use crate::library::fields::Fields;
use crate::owned::OwnedMethod;
use std::error;
use std::fmt;

/// Each struct of [`method`](crate::method), for code that is generic over them: with [`TryFrom`] it waits for one answer.
///
/// ```
/// use feksroum::method::{BasicAck, ChannelOpenOk, Method, MethodInfo, OtherMethod};
///
/// fn expect<'a, T>(method: Method<'a>) -> Result<T, OtherMethod>
/// where
///     T: MethodInfo + TryFrom<Method<'a>, Error = OtherMethod>,
/// {
///     println!("waiting for {}", T::NAME);
///     T::try_from(method)
/// }
///
/// assert_eq!(expect::<ChannelOpenOk>(ChannelOpenOk.into()), Ok(ChannelOpenOk));
/// let other = expect::<ChannelOpenOk>(BasicAck::default().into()).unwrap_err();
/// assert_eq!(other.to_string(), "basic.ack came in place of channel.open-ok");
/// assert_eq!((BasicAck::ID, BasicAck::FIELD_NAMES), ((60, 80), &["delivery-tag", "multiple"][..]));
/// ```
pub trait MethodInfo: Encode + Built {
    /// The id of its class, and its own id in that.
    const ID: (u16, u16);

    /// Its class and name as the standard has them, as `basic.get-ok`.
    const NAME: &'static str;

    /// The names of its fields as the standard has them, in their order.
    const FIELD_NAMES: &'static [&'static str];

    /// The method with memory of its own.
    ///
    /// ```
    /// use feksroum::method::{MethodInfo, QueueDeclareOk};
    /// use feksroum::OwnedMethod;
    ///
    /// let name = String::from("amq.gen-1");
    /// let declared: OwnedMethod<QueueDeclareOk> = QueueDeclareOk { queue: &name, ..QueueDeclareOk::default() }.keep()?;
    /// drop(name);
    /// assert_eq!(declared.get().queue, "amq.gen-1");
    /// # Ok::<(), feksroum::EncodeError>(())
    /// ```
    ///
    /// # Errors
    ///
    /// Why it cannot be written, as that a string is too long. A method that was read has no such fault.
    fn keep(&self) -> Result<OwnedMethod<Self::Of<'static>>, EncodeError>
    where
        Self: Sized,
    {
        OwnedMethod::of(self)
    }
}

/// What is built out of fields. Nothing outside of the crate has it.
pub trait Built {
    /// The same struct, borrowed for as long as its bytes are there.
    type Of<'a>: MethodInfo;

    /// The struct with these fields.
    fn built<'a>(fields: &Fields<'a>) -> Self::Of<'a>;
}

/// A method that is another one than was wanted.
#[derive(Clone, Copy, Debug, PartialEq, Eq, Hash)]
pub struct OtherMethod {
    wanted: &'static str,
    found: &'static str,
}

impl OtherMethod {
    pub(crate) fn new(wanted: &'static str, found: &'static str) -> OtherMethod {
        OtherMethod { wanted, found }
    }

    /// The name of the method that was wanted.
    #[must_use]
    pub fn wanted(self) -> &'static str {
        self.wanted
    }

    /// The name of the method that it is.
    #[must_use]
    pub fn found(self) -> &'static str {
        self.found
    }
}

impl fmt::Display for OtherMethod {
    fn fmt(&self, f: &mut fmt::Formatter<'_>) -> fmt::Result {
        write!(f, "{} came in place of {}", self.found, self.wanted)
    }
}

impl error::Error for OtherMethod {}
