//! Why a call was refused.
use std::error::Error;
use std::fmt;

macro_rules! reasons {
    ($($(#[$doc:meta])* $name:ident = $number:literal, $text:literal;)*) => {
        /// Why a call was refused: by number the refusals of lu62.h, with the same words.
        #[derive(Clone, Copy, Debug, PartialEq, Eq, Hash, PartialOrd, Ord)]
        #[repr(u32)]
        pub enum Reason {
            $($(#[$doc])* $name = $number,)*
        }

        impl Reason {
            /// All reasons, in the order of their numbers.
            pub const ALL: &'static [Reason] = &[$(Reason::$name,)*];

            /// The reason with this number.
            pub fn from_number(number: u32) -> Option<Reason> {
                match number {
                    $($number => Some(Reason::$name),)*
                    _ => None,
                }
            }

            /// The reason in a few words.
            pub fn text(self) -> &'static str {
                match self {
                    $(Reason::$name => $text,)*
                }
            }
        }
    };
}

reasons! {
    /// The role is neither of the two.
    BadRole = 1, "the role is neither first speaker nor bidder";
    /// A window is out of range.
    BadWindow = 2, "a window is out of range";
    /// A maximum RU is out of range.
    BadMaximum = 3, "a maximum RU is out of range";
    /// Image, send, unit or inbox has a wrong length.
    BadBuffer = 4, "a buffer has a wrong length";
    /// The image has another format, or holds no record that calls can leave.
    BadRecord = 5, "the end's record is not one that calls can leave";
    /// No bytes or more than M given; an empty buffer to read into.
    BadLength = 6, "no bytes, or too many";
    /// The state, a bid under way or an error due does not allow the call.
    WrongState = 7, "the state does not allow the call";
    /// A logical record's length, LL without its top bit, is under 2.
    BadLl = 8, "a logical record's length is under 2";
    /// The last record given is not whole, or is a part that says another follows.
    UnfinishedRecord = 9, "the last record given is not whole, or says that another part follows";
    /// A request must go and the partner has not made room for it.
    NoCredit = 10, "no credit for a request";
    /// No pacing response is owed, or the inbox has no room for a window yet.
    NothingToPace = 11, "no pacing response is due";
    /// No byte is held and no mark stands.
    NothingToRead = 12, "nothing to read";
    /// A mark stands: read up to it before the next unit is taken.
    UnreadMark = 13, "a mark has not been read";
    /// Under 5 bytes.
    ShortUnit = 20, "the unit is too short";
    /// The header breaks rules of H1 to H6 in lu62.h; [`Refusal::rule`] is the lowest of them.
    BadHeader = 21, "the header breaks a rule";
    /// The RU does not fit the header, or is too long.
    BadRu = 22, "the RU does not fit";
    /// Not the next sequence number of its line.
    BadNumber = 23, "the sequence number is not the next";
    /// First in chain, or an error header, where a chain is open; or the reverse.
    BadChain = 24, "the unit does not fit the chain";
    /// Begin bracket where none may begin, or missing where one must; a bid to a bidder.
    BadBracket = 25, "the unit does not fit the bracket";
    /// Data, or an error header, where this end does not receive.
    BadState = 26, "data or an error header came where this end does not receive";
    /// More requests than the window allows, a wrong pacing bit, a pacing response unasked.
    BadPacing = 27, "the unit does not fit the pacing window";
    /// A response, a confirmation's refusal too, to nothing that this end has asked.
    BadResponse = 28, "a response to nothing asked";
    /// A bad LL; or, at a mark, also error, a record that is not whole or is a part that says another follows.
    BadRecords = 29, "a bad record length, or a mark behind a record not whole or with another part to follow";
    /// The partner has not answered the signal that this end made last.
    SignalUnanswered = 30, "a signal has not been answered";
    /// The maximum RU is in range, and no size byte means it.
    NoSizeByte = 31, "no size byte means this maximum RU";
}

impl Reason {
    /// The refusal's number.
    pub fn number(self) -> u32 {
        self as u32
    }

    /// Whether the partner broke the protocol.
    pub fn is_breach(self) -> bool {
        (Reason::ShortUnit..=Reason::BadRecords).contains(&self)
    }
}

impl fmt::Display for Reason {
    fn fmt(&self, f: &mut fmt::Formatter<'_>) -> fmt::Result {
        f.write_str(self.text())
    }
}

/// A refused call: it changed nothing.
#[derive(Clone, Copy, Debug, PartialEq, Eq)]
pub struct Refusal {
    /// Why.
    pub reason: Reason,
    /// Sense data, 0 where the refusal has none.
    pub sense: u32,
    /// The lowest header rule broken, 1 to 6, with [`Reason::BadHeader`]; else 0.
    pub rule: u32,
}

impl fmt::Display for Refusal {
    fn fmt(&self, f: &mut fmt::Formatter<'_>) -> fmt::Result {
        write!(f, "refusal {} ({}), sense {:08X}", self.reason.number(), self.reason, self.sense)?;
        if self.rule != 0 {
            write!(f, ", rule H{}", self.rule)?;
        }
        Ok(())
    }
}

impl Error for Refusal {}
