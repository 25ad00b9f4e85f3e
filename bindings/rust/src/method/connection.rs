//! Class connection: opening, tuning and closing a connection.

// Made by `generate` out of the library's table. Change that, and not this file.

use crate::encode::Encode;
use crate::field::{Field, List, Listed};
use crate::library::fields::Fields;
use crate::method_info::{Built, MethodInfo};
use crate::table::Table;

/// `connection.start`. The server begins: its version, what it is, and how a client may log in.
///
/// Class 10, method 10, it wants an answer.
#[derive(Clone, Copy, Debug, Default, PartialEq, Eq)]
pub struct ConnectionStart<'a> {
    /// The version of the protocol: 0 (`version-major`).
    pub version_major: u8,
    /// The rest of that version: 9 (`version-minor`).
    pub version_minor: u8,
    /// What the server is and can do (`server-properties`).
    pub server_properties: Table<'a>,
    /// The ways to log in that the server knows, with spaces between them (`mechanisms`).
    pub mechanisms: &'a [u8],
    /// The locales of texts that the server knows, with spaces between them (`locales`).
    pub locales: &'a [u8],
}

impl<'a> ConnectionStart<'a> {
    #[inline]
    pub(crate) fn read(fields: &Fields<'a>) -> Self {
        let fields = fields.places();
        ConnectionStart {
            version_major: fields.octet(0),
            version_minor: fields.octet(1),
            server_properties: fields.table(2),
            mechanisms: fields.long_string(3),
            locales: fields.long_string(4),
        }
    }
}

impl MethodInfo for ConnectionStart<'_> {
    const ID: (u16, u16) = (10, 10);
    const NAME: &'static str = "connection.start";
    const FIELD_NAMES: &'static [&'static str] = &["version-major", "version-minor", "server-properties", "mechanisms", "locales"];
}

impl Built for ConnectionStart<'_> {
    type Of<'a> = ConnectionStart<'a>;

    #[inline]
    fn built<'a>(fields: &Fields<'a>) -> ConnectionStart<'a> {
        ConnectionStart::read(fields)
    }
}

impl Listed for ConnectionStart<'_> {
    fn list(&self) -> List<'_> {
        List::of([
            Some(Field::Octet(self.version_major)),
            Some(Field::Octet(self.version_minor)),
            Some(Field::Table(self.server_properties)),
            Some(Field::LongString(self.mechanisms)),
            Some(Field::LongString(self.locales)),
        ])
    }
}

impl Encode for ConnectionStart<'_> {}

/// `connection.start-ok`. The client logs in, and says what it is. `response` may have its password, which `Debug` shows.
///
/// Class 10, method 11.
#[derive(Clone, Copy, Debug, Default, PartialEq, Eq)]
pub struct ConnectionStartOk<'a> {
    /// What the client is and can do (`client-properties`).
    pub client_properties: Table<'a>,
    /// The way to log in that the client chose (`mechanism`).
    pub mechanism: &'a str,
    /// What the client answers (`response`).
    pub response: &'a [u8],
    /// The locale that the client chose (`locale`).
    pub locale: &'a str,
}

impl<'a> ConnectionStartOk<'a> {
    #[inline]
    pub(crate) fn read(fields: &Fields<'a>) -> Self {
        let fields = fields.places();
        ConnectionStartOk {
            client_properties: fields.table(0),
            mechanism: fields.short_string(1),
            response: fields.long_string(2),
            locale: fields.short_string(3),
        }
    }
}

impl MethodInfo for ConnectionStartOk<'_> {
    const ID: (u16, u16) = (10, 11);
    const NAME: &'static str = "connection.start-ok";
    const FIELD_NAMES: &'static [&'static str] = &["client-properties", "mechanism", "response", "locale"];
}

impl Built for ConnectionStartOk<'_> {
    type Of<'a> = ConnectionStartOk<'a>;

    #[inline]
    fn built<'a>(fields: &Fields<'a>) -> ConnectionStartOk<'a> {
        ConnectionStartOk::read(fields)
    }
}

impl Listed for ConnectionStartOk<'_> {
    fn list(&self) -> List<'_> {
        List::of([
            Some(Field::Table(self.client_properties)),
            Some(Field::ShortString(self.mechanism)),
            Some(Field::LongString(self.response)),
            Some(Field::ShortString(self.locale)),
        ])
    }
}

impl Encode for ConnectionStartOk<'_> {}

/// `connection.secure`. The server asks for more in order to log the client in.
///
/// Class 10, method 20, it wants an answer.
#[derive(Clone, Copy, Debug, Default, PartialEq, Eq)]
pub struct ConnectionSecure<'a> {
    /// What the server asks (`challenge`).
    pub challenge: &'a [u8],
}

impl<'a> ConnectionSecure<'a> {
    #[inline]
    pub(crate) fn read(fields: &Fields<'a>) -> Self {
        let fields = fields.places();
        ConnectionSecure { challenge: fields.long_string(0) }
    }
}

impl MethodInfo for ConnectionSecure<'_> {
    const ID: (u16, u16) = (10, 20);
    const NAME: &'static str = "connection.secure";
    const FIELD_NAMES: &'static [&'static str] = &["challenge"];
}

impl Built for ConnectionSecure<'_> {
    type Of<'a> = ConnectionSecure<'a>;

    #[inline]
    fn built<'a>(fields: &Fields<'a>) -> ConnectionSecure<'a> {
        ConnectionSecure::read(fields)
    }
}

impl Listed for ConnectionSecure<'_> {
    fn list(&self) -> List<'_> {
        List::of([Some(Field::LongString(self.challenge))])
    }
}

impl Encode for ConnectionSecure<'_> {}

/// `connection.secure-ok`. The client answers that. It may be a secret, which `Debug` shows.
///
/// Class 10, method 21.
#[derive(Clone, Copy, Debug, Default, PartialEq, Eq)]
pub struct ConnectionSecureOk<'a> {
    /// What the client answers (`response`).
    pub response: &'a [u8],
}

impl<'a> ConnectionSecureOk<'a> {
    #[inline]
    pub(crate) fn read(fields: &Fields<'a>) -> Self {
        let fields = fields.places();
        ConnectionSecureOk { response: fields.long_string(0) }
    }
}

impl MethodInfo for ConnectionSecureOk<'_> {
    const ID: (u16, u16) = (10, 21);
    const NAME: &'static str = "connection.secure-ok";
    const FIELD_NAMES: &'static [&'static str] = &["response"];
}

impl Built for ConnectionSecureOk<'_> {
    type Of<'a> = ConnectionSecureOk<'a>;

    #[inline]
    fn built<'a>(fields: &Fields<'a>) -> ConnectionSecureOk<'a> {
        ConnectionSecureOk::read(fields)
    }
}

impl Listed for ConnectionSecureOk<'_> {
    fn list(&self) -> List<'_> {
        List::of([Some(Field::LongString(self.response))])
    }
}

impl Encode for ConnectionSecureOk<'_> {}

/// `connection.tune`. The server proposes limits.
///
/// Class 10, method 30, it wants an answer.
#[derive(Clone, Copy, Debug, Default, PartialEq, Eq)]
pub struct ConnectionTune {
    /// The highest channel, 0 for no limit (`channel-max`).
    pub channel_max: u16,
    /// The most bytes of a frame, its header and end counted, 0 for no limit (`frame-max`).
    pub frame_max: u32,
    /// The seconds between heartbeats, 0 for none (`heartbeat`).
    pub heartbeat: u16,
}

impl ConnectionTune {
    #[inline]
    pub(crate) fn read(fields: &Fields<'_>) -> Self {
        let fields = fields.places();
        ConnectionTune { channel_max: fields.short(0), frame_max: fields.long(1), heartbeat: fields.short(2) }
    }
}

impl MethodInfo for ConnectionTune {
    const ID: (u16, u16) = (10, 30);
    const NAME: &'static str = "connection.tune";
    const FIELD_NAMES: &'static [&'static str] = &["channel-max", "frame-max", "heartbeat"];
}

impl Built for ConnectionTune {
    type Of<'a> = ConnectionTune;

    #[inline]
    fn built(fields: &Fields<'_>) -> ConnectionTune {
        ConnectionTune::read(fields)
    }
}

impl Listed for ConnectionTune {
    fn list(&self) -> List<'_> {
        List::of([Some(Field::Short(self.channel_max)), Some(Field::Long(self.frame_max)), Some(Field::Short(self.heartbeat))])
    }
}

impl Encode for ConnectionTune {}

/// `connection.tune-ok`. The client says which limits hold.
///
/// Class 10, method 31.
#[derive(Clone, Copy, Debug, Default, PartialEq, Eq)]
pub struct ConnectionTuneOk {
    /// The highest channel, 0 for no limit (`channel-max`).
    pub channel_max: u16,
    /// The most bytes of a frame, its header and end counted, 0 for no limit (`frame-max`).
    pub frame_max: u32,
    /// The seconds between heartbeats, 0 for none (`heartbeat`).
    pub heartbeat: u16,
}

impl ConnectionTuneOk {
    #[inline]
    pub(crate) fn read(fields: &Fields<'_>) -> Self {
        let fields = fields.places();
        ConnectionTuneOk { channel_max: fields.short(0), frame_max: fields.long(1), heartbeat: fields.short(2) }
    }
}

impl MethodInfo for ConnectionTuneOk {
    const ID: (u16, u16) = (10, 31);
    const NAME: &'static str = "connection.tune-ok";
    const FIELD_NAMES: &'static [&'static str] = &["channel-max", "frame-max", "heartbeat"];
}

impl Built for ConnectionTuneOk {
    type Of<'a> = ConnectionTuneOk;

    #[inline]
    fn built(fields: &Fields<'_>) -> ConnectionTuneOk {
        ConnectionTuneOk::read(fields)
    }
}

impl Listed for ConnectionTuneOk {
    fn list(&self) -> List<'_> {
        List::of([Some(Field::Short(self.channel_max)), Some(Field::Long(self.frame_max)), Some(Field::Short(self.heartbeat))])
    }
}

impl Encode for ConnectionTuneOk {}

/// `connection.open`. The client opens a virtual host.
///
/// Class 10, method 40, it wants an answer.
#[derive(Clone, Copy, Debug, Default, PartialEq, Eq)]
pub struct ConnectionOpen<'a> {
    /// The virtual host's name (`virtual-host`).
    pub virtual_host: &'a str,
}

impl<'a> ConnectionOpen<'a> {
    #[inline]
    pub(crate) fn read(fields: &Fields<'a>) -> Self {
        let fields = fields.places();
        ConnectionOpen { virtual_host: fields.short_string(0) }
    }
}

impl MethodInfo for ConnectionOpen<'_> {
    const ID: (u16, u16) = (10, 40);
    const NAME: &'static str = "connection.open";
    const FIELD_NAMES: &'static [&'static str] = &["virtual-host"];
}

impl Built for ConnectionOpen<'_> {
    type Of<'a> = ConnectionOpen<'a>;

    #[inline]
    fn built<'a>(fields: &Fields<'a>) -> ConnectionOpen<'a> {
        ConnectionOpen::read(fields)
    }
}

impl Listed for ConnectionOpen<'_> {
    fn list(&self) -> List<'_> {
        List::of([Some(Field::ShortString(self.virtual_host))])
    }
}

impl Encode for ConnectionOpen<'_> {}

/// `connection.open-ok`. The virtual host is open.
///
/// Class 10, method 41.
#[derive(Clone, Copy, Debug, Default, PartialEq, Eq)]
pub struct ConnectionOpenOk;

impl MethodInfo for ConnectionOpenOk {
    const ID: (u16, u16) = (10, 41);
    const NAME: &'static str = "connection.open-ok";
    const FIELD_NAMES: &'static [&'static str] = &[];
}

impl Built for ConnectionOpenOk {
    type Of<'a> = ConnectionOpenOk;

    #[inline]
    fn built(_: &Fields<'_>) -> ConnectionOpenOk {
        ConnectionOpenOk
    }
}

impl Listed for ConnectionOpenOk {
    fn list(&self) -> List<'_> {
        List::of([])
    }
}

impl Encode for ConnectionOpenOk {}

/// `connection.close`. One side closes the connection, and says why.
///
/// Class 10, method 50, it wants an answer.
#[derive(Clone, Copy, Debug, Default, PartialEq, Eq)]
pub struct ConnectionClose<'a> {
    /// Why: 200, or the code of an error (`reply-code`).
    pub reply_code: u16,
    /// The same in words (`reply-text`).
    pub reply_text: &'a str,
    /// The class of the method that was at fault, else 0 (`class-id`).
    pub class_id: u16,
    /// The id of the method that was at fault, else 0 (`method-id`).
    pub method_id: u16,
}

impl<'a> ConnectionClose<'a> {
    #[inline]
    pub(crate) fn read(fields: &Fields<'a>) -> Self {
        let fields = fields.places();
        ConnectionClose {
            reply_code: fields.short(0),
            reply_text: fields.short_string(1),
            class_id: fields.short(2),
            method_id: fields.short(3),
        }
    }
}

impl MethodInfo for ConnectionClose<'_> {
    const ID: (u16, u16) = (10, 50);
    const NAME: &'static str = "connection.close";
    const FIELD_NAMES: &'static [&'static str] = &["reply-code", "reply-text", "class-id", "method-id"];
}

impl Built for ConnectionClose<'_> {
    type Of<'a> = ConnectionClose<'a>;

    #[inline]
    fn built<'a>(fields: &Fields<'a>) -> ConnectionClose<'a> {
        ConnectionClose::read(fields)
    }
}

impl Listed for ConnectionClose<'_> {
    fn list(&self) -> List<'_> {
        List::of([
            Some(Field::Short(self.reply_code)),
            Some(Field::ShortString(self.reply_text)),
            Some(Field::Short(self.class_id)),
            Some(Field::Short(self.method_id)),
        ])
    }
}

impl Encode for ConnectionClose<'_> {}

/// `connection.close-ok`. The other side has closed it too.
///
/// Class 10, method 51.
#[derive(Clone, Copy, Debug, Default, PartialEq, Eq)]
pub struct ConnectionCloseOk;

impl MethodInfo for ConnectionCloseOk {
    const ID: (u16, u16) = (10, 51);
    const NAME: &'static str = "connection.close-ok";
    const FIELD_NAMES: &'static [&'static str] = &[];
}

impl Built for ConnectionCloseOk {
    type Of<'a> = ConnectionCloseOk;

    #[inline]
    fn built(_: &Fields<'_>) -> ConnectionCloseOk {
        ConnectionCloseOk
    }
}

impl Listed for ConnectionCloseOk {
    fn list(&self) -> List<'_> {
        List::of([])
    }
}

impl Encode for ConnectionCloseOk {}

/// `connection.blocked`. The server takes no messages for now.
///
/// Class 10, method 60.
#[derive(Clone, Copy, Debug, Default, PartialEq, Eq)]
pub struct ConnectionBlocked<'a> {
    /// Why (`reason`).
    pub reason: &'a str,
}

impl<'a> ConnectionBlocked<'a> {
    #[inline]
    pub(crate) fn read(fields: &Fields<'a>) -> Self {
        let fields = fields.places();
        ConnectionBlocked { reason: fields.short_string(0) }
    }
}

impl MethodInfo for ConnectionBlocked<'_> {
    const ID: (u16, u16) = (10, 60);
    const NAME: &'static str = "connection.blocked";
    const FIELD_NAMES: &'static [&'static str] = &["reason"];
}

impl Built for ConnectionBlocked<'_> {
    type Of<'a> = ConnectionBlocked<'a>;

    #[inline]
    fn built<'a>(fields: &Fields<'a>) -> ConnectionBlocked<'a> {
        ConnectionBlocked::read(fields)
    }
}

impl Listed for ConnectionBlocked<'_> {
    fn list(&self) -> List<'_> {
        List::of([Some(Field::ShortString(self.reason))])
    }
}

impl Encode for ConnectionBlocked<'_> {}

/// `connection.unblocked`. The server takes messages again.
///
/// Class 10, method 61.
#[derive(Clone, Copy, Debug, Default, PartialEq, Eq)]
pub struct ConnectionUnblocked;

impl MethodInfo for ConnectionUnblocked {
    const ID: (u16, u16) = (10, 61);
    const NAME: &'static str = "connection.unblocked";
    const FIELD_NAMES: &'static [&'static str] = &[];
}

impl Built for ConnectionUnblocked {
    type Of<'a> = ConnectionUnblocked;

    #[inline]
    fn built(_: &Fields<'_>) -> ConnectionUnblocked {
        ConnectionUnblocked
    }
}

impl Listed for ConnectionUnblocked {
    fn list(&self) -> List<'_> {
        List::of([])
    }
}

impl Encode for ConnectionUnblocked {}

/// `connection.update-secret`. The client gives a new secret before the old one expires; `Debug` shows it.
///
/// Class 10, method 70, it wants an answer.
#[derive(Clone, Copy, Debug, Default, PartialEq, Eq)]
pub struct ConnectionUpdateSecret<'a> {
    /// The secret (`new-secret`).
    pub new_secret: &'a [u8],
    /// Why (`reason`).
    pub reason: &'a str,
}

impl<'a> ConnectionUpdateSecret<'a> {
    #[inline]
    pub(crate) fn read(fields: &Fields<'a>) -> Self {
        let fields = fields.places();
        ConnectionUpdateSecret { new_secret: fields.long_string(0), reason: fields.short_string(1) }
    }
}

impl MethodInfo for ConnectionUpdateSecret<'_> {
    const ID: (u16, u16) = (10, 70);
    const NAME: &'static str = "connection.update-secret";
    const FIELD_NAMES: &'static [&'static str] = &["new-secret", "reason"];
}

impl Built for ConnectionUpdateSecret<'_> {
    type Of<'a> = ConnectionUpdateSecret<'a>;

    #[inline]
    fn built<'a>(fields: &Fields<'a>) -> ConnectionUpdateSecret<'a> {
        ConnectionUpdateSecret::read(fields)
    }
}

impl Listed for ConnectionUpdateSecret<'_> {
    fn list(&self) -> List<'_> {
        List::of([Some(Field::LongString(self.new_secret)), Some(Field::ShortString(self.reason))])
    }
}

impl Encode for ConnectionUpdateSecret<'_> {}

/// `connection.update-secret-ok`. The server has taken it.
///
/// Class 10, method 71.
#[derive(Clone, Copy, Debug, Default, PartialEq, Eq)]
pub struct ConnectionUpdateSecretOk;

impl MethodInfo for ConnectionUpdateSecretOk {
    const ID: (u16, u16) = (10, 71);
    const NAME: &'static str = "connection.update-secret-ok";
    const FIELD_NAMES: &'static [&'static str] = &[];
}

impl Built for ConnectionUpdateSecretOk {
    type Of<'a> = ConnectionUpdateSecretOk;

    #[inline]
    fn built(_: &Fields<'_>) -> ConnectionUpdateSecretOk {
        ConnectionUpdateSecretOk
    }
}

impl Listed for ConnectionUpdateSecretOk {
    fn list(&self) -> List<'_> {
        List::of([])
    }
}

impl Encode for ConnectionUpdateSecretOk {}
