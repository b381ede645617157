//! Names for the numbers in an answer.

use std::fmt;

/// Declares an enum with a case for every 32-bit number; each named case has its number and its display text.
macro_rules! numbers {
    (
        $(#[$about:meta])*
        $name:ident { $($(#[$doc:meta])* $case:ident = $number:literal, $word:literal;)+ }
    ) => {
        $(#[$about])*
        #[non_exhaustive]
        #[derive(Clone, Copy, Debug, PartialEq, Eq, Hash)]
        pub enum $name {
            $($(#[$doc])* $case,)+
            /// A number that has no name in this version. A later version may name it, so do not match on the number.
            Unknown(u32),
        }

        impl $name {
            /// The number that the library uses.
            pub const fn raw(self) -> u32 {
                match self {
                    $(Self::$case => $number,)+
                    Self::Unknown(number) => number,
                }
            }
        }

        impl From<u32> for $name {
            fn from(number: u32) -> Self {
                match number {
                    $($number => Self::$case,)+
                    _ => Self::Unknown(number),
                }
            }
        }

        impl From<$name> for u32 {
            fn from(named: $name) -> Self {
                named.raw()
            }
        }

        impl fmt::Display for $name {
            fn fmt(&self, out: &mut fmt::Formatter<'_>) -> fmt::Result {
                match self {
                    $(Self::$case => out.pad($word),)+
                    Self::Unknown(number) => fmt::Display::fmt(number, out),
                }
            }
        }
    };
}

numbers! {
    /// The result of a call. Every number but `Done` is a refusal, which changes nothing. If several refusals apply, the call gives
    /// the one that is listed first here, with one exception: `NoStock` comes after a book of the wrong shape and before a rubbish
    /// record.
    Number {
        /// The call was done.
        Done = 0, "done";
        /// The book has no stocks or more than 64, an array has the wrong length, or the stock's record is rubbish.
        Rubbish = 1, "the book has a wrong shape, or the stock is rubbish";
        /// Setup: the session's end or a stock's setup is out of range.
        BadSetup = 2, "the session's end or a setup is out of range";
        /// The stock's number is too large.
        NoStock = 3, "there is no such stock";
        /// A price, a participant or a time is out of range.
        OutOfRange = 4, "a price, a participant or a time is out of range";
        /// A message's time is before the stock's clock.
        BeforeClock = 5, "the time is before the stock's clock";
        /// A moment is due by the message's time and was not settled: settle first.
        Unsettled = 6, "a moment is not settled";
        /// The participant is not the stock's primary listing exchange.
        NotPrimary = 8, "the participant is not the primary";
        /// The stock is `Closed`.
        ClosedStock = 7, "the stock is closed";
        /// The stock's state does not take this message.
        WrongState = 9, "the state takes no such message";
        /// A trade in a pause.
        InPause = 11, "a trade in a pause";
        /// An opening at 300,000 or later, in `Waiting`.
        TooLate = 15, "the opening came too late";
        /// A pause while no side is `NonExecutable`, in `Trading`.
        NoStraddle = 16, "a pause while no best quote is outside the bands";
        /// A reopening in the first 300,000 of a pause, or a closing before the session's end.
        NotYet = 10, "it is too early to reopen or to close";
        /// A trade outside the bands in force.
        OutsideBands = 12, "a trade outside the bands";
        /// A trade while the stock holds 512 trades.
        NoRoom = 13, "there is no room for a trade";
        /// Settling: nothing is due.
        NothingDue = 14, "nothing is due";
    }
}

impl Number {
    /// Whether an answer with this number has a stock's values. It is false for a number that has no name in this version.
    pub(crate) const fn has_stock(self) -> bool {
        !matches!(
            self,
            Self::Rubbish | Self::BadSetup | Self::NoStock | Self::Unknown(_)
        )
    }
}

numbers! {
    /// The state of a stock.
    State {
        /// No reference price yet: trades at any price.
        Waiting = 0, "Waiting";
        /// Trades between the bands, both included.
        Trading = 1, "Trading";
        /// Trades between the bands while a quote stands at a band; if this lasts 15,000, a pause starts.
        Limit = 2, "Limit";
        /// No trades until the primary reopens the stock, or the pause has lasted 600,000.
        Paused = 3, "Paused";
        /// A pause that started at the session's end - 600,000 or later: the stock does not trade again.
        LatePause = 4, "Late pause";
        /// The day is over for this stock.
        Closed = 5, "Closed";
    }
}

numbers! {
    /// How a best bid or a best offer stands to the bands in force.
    Flag {
        /// There is no bid, or no offer; a [`Quote`](crate::Quote) never has this flag.
        Absent = 0, "absent";
        /// Neither of the following, or no bands are in force.
        Plain = 1, "plain";
        /// A bid below the lower band, an offer above the upper band.
        NonExecutable = 2, "non-executable";
        /// A bid at the upper band, an offer at the lower band.
        Limit = 3, "limit";
    }
}

numbers! {
    /// Which moment it is: the rules name each by a letter.
    Mark {
        /// No moment was done; a [`Notice`](crate::Notice) never has this mark.
        NoMoment = 0, "none";
        /// The session's end; the stock closes.
        Z = 0x7a, "z";
        /// At 900,000 and at the session's end - 1,500,000; the bands' width changes.
        W = 0x77, "w";
        /// A limit state has lasted 15,000; a pause starts.
        X = 0x78, "x";
        /// A pause has lasted 600,000; the stock trades again.
        P = 0x70, "p";
        /// The session's end + 300,000; a late pause ends and the stock closes.
        C = 0x63, "c";
        /// Trades are 300,000 old and leave the window.
        V = 0x76, "v";
        /// At 300,000; the mean of the trades so far becomes the first reference.
        F = 0x66, "f";
        /// A reference is 30,000 old and may be replaced from now on.
        H = 0x68, "h";
    }
}

impl Mark {
    /// The moment's letter, or `?` if the mark is not the code of a lowercase letter.
    pub fn letter(self) -> char {
        match char::from_u32(self.raw()) {
            Some(letter) if letter.is_ascii_lowercase() => letter,
            _ => '?',
        }
    }
}
