//! The 14 properties of a message.

// Made by `generate` out of the library's table. Change that, and not this file.

use crate::error::Error;
use crate::field::{Field, List};
use crate::library::fields::Fields;
use crate::payload::{ContentHeader, Payload};
use crate::table::Table;

/// What is said of a message beside its body. Those that are not set are not sent.
///
/// ```
/// use feksroum::{Properties, TableBuf};
///
/// let headers = TableBuf::from_entries([("attempt", 1)])?;
/// let properties = Properties::default().with_content_type("text/plain").with_delivery_mode(2).with_headers(headers.as_table());
/// assert_eq!(properties.delivery_mode, Some(2));
/// # Ok::<(), feksroum::EncodeError>(())
/// ```
#[derive(Clone, Copy, Debug, Default, PartialEq, Eq)]
pub struct Properties<'a> {
    /// The body's media type (`content-type`).
    pub content_type: Option<&'a str>,
    /// How the body is encoded, as `gzip` (`content-encoding`).
    pub content_encoding: Option<&'a str>,
    /// What applications and brokers say beside the other properties (`headers`).
    pub headers: Option<Table<'a>>,
    /// 1 for a message that may be lost in a restart, 2 for one that is kept (`delivery-mode`).
    pub delivery_mode: Option<u8>,
    /// The message's priority, from 0 on (`priority`).
    pub priority: Option<u8>,
    /// What the message answers (`correlation-id`).
    pub correlation_id: Option<&'a str>,
    /// The queue for answers (`reply-to`).
    pub reply_to: Option<&'a str>,
    /// After how many milliseconds the message expires, in decimal (`expiration`).
    pub expiration: Option<&'a str>,
    /// The message's name (`message-id`).
    pub message_id: Option<&'a str>,
    /// When the message was made: seconds since 1970 began in UTC (`timestamp`).
    pub timestamp: Option<u64>,
    /// What the message is to its application (`type`).
    pub kind: Option<&'a str>,
    /// The user who published the message (`user-id`).
    pub user_id: Option<&'a str>,
    /// The application that published the message (`app-id`).
    pub app_id: Option<&'a str>,
    /// Not used any more (`cluster-id`).
    pub cluster_id: Option<&'a str>,
}

impl<'a> Properties<'a> {
    /// Their names as the standard has them, by their places.
    pub(crate) const NAMES: &'static [&'static str] = &[
        "content-type",
        "content-encoding",
        "headers",
        "delivery-mode",
        "priority",
        "correlation-id",
        "reply-to",
        "expiration",
        "message-id",
        "timestamp",
        "type",
        "user-id",
        "app-id",
        "cluster-id",
    ];

    /// Their kinds, by their places.
    pub(crate) const KINDS: [u8; 14] = [6, 6, 8, 1, 1, 6, 6, 6, 6, 4, 6, 6, 6, 6];

    /// Those of a content header that was read.
    // A call of its own, and that of the header beside it: so they are written where the header is wanted.
    #[inline(never)]
    pub(crate) fn read(fields: &Fields<'a>) -> Properties<'a> {
        let fields = fields.places();
        let mut properties = Properties::default();
        if fields.has(0) {
            properties.content_type = Some(fields.short_string(0));
        }
        if fields.has(1) {
            properties.content_encoding = Some(fields.short_string(1));
        }
        if fields.has(2) {
            properties.headers = Some(fields.table(2));
        }
        if fields.has(3) {
            properties.delivery_mode = Some(fields.octet(3));
        }
        if fields.has(4) {
            properties.priority = Some(fields.octet(4));
        }
        if fields.has_any(5..9) {
            if fields.has(5) {
                properties.correlation_id = Some(fields.short_string(5));
            }
            if fields.has(6) {
                properties.reply_to = Some(fields.short_string(6));
            }
            if fields.has(7) {
                properties.expiration = Some(fields.short_string(7));
            }
            if fields.has(8) {
                properties.message_id = Some(fields.short_string(8));
            }
        }
        if fields.has_any(9..14) {
            if fields.has(9) {
                properties.timestamp = Some(fields.long_long(9));
            }
            if fields.has(10) {
                properties.kind = Some(fields.short_string(10));
            }
            if fields.has(11) {
                properties.user_id = Some(fields.short_string(11));
            }
            if fields.has(12) {
                properties.app_id = Some(fields.short_string(12));
            }
            if fields.has(13) {
                properties.cluster_id = Some(fields.short_string(13));
            }
        }
        properties
    }

    /// The content header that was read, as what stands in a frame.
    #[inline(never)]
    #[allow(clippy::unnecessary_wraps)]
    pub(crate) fn header(fields: &Fields<'a>) -> Result<Payload<'a>, Error> {
        let properties = Properties::read(fields);
        Ok(Payload::Header(ContentHeader { class_id: fields.ids().0, body_size: fields.body_size(), properties }))
    }

    pub(crate) fn list(&self) -> List<'a> {
        List::of([
            self.content_type.map(Field::ShortString),
            self.content_encoding.map(Field::ShortString),
            self.headers.map(Field::Table),
            self.delivery_mode.map(Field::Octet),
            self.priority.map(Field::Octet),
            self.correlation_id.map(Field::ShortString),
            self.reply_to.map(Field::ShortString),
            self.expiration.map(Field::ShortString),
            self.message_id.map(Field::ShortString),
            self.timestamp.map(Field::LongLong),
            self.kind.map(Field::ShortString),
            self.user_id.map(Field::ShortString),
            self.app_id.map(Field::ShortString),
            self.cluster_id.map(Field::ShortString),
        ])
    }

    /// Those that are set, in their order, with their names as the standard has them.
    ///
    /// ```
    /// use feksroum::{Field, Properties};
    ///
    /// let properties = Properties::default().with_app_id("till").with_priority(5);
    /// let fields: Vec<_> = properties.fields().collect();
    /// assert_eq!(fields, [("priority", Field::Octet(5)), ("app-id", Field::ShortString("till"))]);
    /// ```
    pub fn fields(&self) -> impl Iterator<Item = (&'static str, Field<'a>)> {
        self.list().named(Properties::NAMES)
    }

    /// Sets [`content_type`](Properties::content_type).
    #[must_use]
    pub fn with_content_type(self, content_type: &'a str) -> Properties<'a> {
        Properties { content_type: Some(content_type), ..self }
    }

    /// Sets [`content_encoding`](Properties::content_encoding).
    #[must_use]
    pub fn with_content_encoding(self, content_encoding: &'a str) -> Properties<'a> {
        Properties { content_encoding: Some(content_encoding), ..self }
    }

    /// Sets [`headers`](Properties::headers).
    #[must_use]
    pub fn with_headers(self, headers: Table<'a>) -> Properties<'a> {
        Properties { headers: Some(headers), ..self }
    }

    /// Sets [`delivery_mode`](Properties::delivery_mode).
    #[must_use]
    pub fn with_delivery_mode(self, delivery_mode: u8) -> Properties<'a> {
        Properties { delivery_mode: Some(delivery_mode), ..self }
    }

    /// Sets [`priority`](Properties::priority).
    #[must_use]
    pub fn with_priority(self, priority: u8) -> Properties<'a> {
        Properties { priority: Some(priority), ..self }
    }

    /// Sets [`correlation_id`](Properties::correlation_id).
    #[must_use]
    pub fn with_correlation_id(self, correlation_id: &'a str) -> Properties<'a> {
        Properties { correlation_id: Some(correlation_id), ..self }
    }

    /// Sets [`reply_to`](Properties::reply_to).
    #[must_use]
    pub fn with_reply_to(self, reply_to: &'a str) -> Properties<'a> {
        Properties { reply_to: Some(reply_to), ..self }
    }

    /// Sets [`expiration`](Properties::expiration).
    #[must_use]
    pub fn with_expiration(self, expiration: &'a str) -> Properties<'a> {
        Properties { expiration: Some(expiration), ..self }
    }

    /// Sets [`message_id`](Properties::message_id).
    #[must_use]
    pub fn with_message_id(self, message_id: &'a str) -> Properties<'a> {
        Properties { message_id: Some(message_id), ..self }
    }

    /// Sets [`timestamp`](Properties::timestamp).
    #[must_use]
    pub fn with_timestamp(self, timestamp: u64) -> Properties<'a> {
        Properties { timestamp: Some(timestamp), ..self }
    }

    /// Sets [`kind`](Properties::kind).
    #[must_use]
    pub fn with_kind(self, kind: &'a str) -> Properties<'a> {
        Properties { kind: Some(kind), ..self }
    }

    /// Sets [`user_id`](Properties::user_id).
    #[must_use]
    pub fn with_user_id(self, user_id: &'a str) -> Properties<'a> {
        Properties { user_id: Some(user_id), ..self }
    }

    /// Sets [`app_id`](Properties::app_id).
    #[must_use]
    pub fn with_app_id(self, app_id: &'a str) -> Properties<'a> {
        Properties { app_id: Some(app_id), ..self }
    }

    /// Sets [`cluster_id`](Properties::cluster_id).
    #[must_use]
    pub fn with_cluster_id(self, cluster_id: &'a str) -> Properties<'a> {
        Properties { cluster_id: Some(cluster_id), ..self }
    }
}
