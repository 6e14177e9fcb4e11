//! A call with its buffers as they are before it, and its outcome; both have a text in hex, and a
//! call is read back from its own.

use std::fmt::{self, Display, Formatter};

use second::{Done, Message, Reading, Request};

use super::entry_points::{argument, entry_points};
use super::part::Part;
use super::texts::{hex, Argument, Returned};
use super::unit::Unit;

/// A buffer, behind the name that its entry point has for it.
pub type Named<'a> = (&'static str, &'a [u8]);

macro_rules! calls {
    ($($call:ident = $name:ident($($argument:ident:
        $(*const $read:ident, $read_length:ident: usize)?
        $(*mut $written:ident, $written_length:ident: usize)?
        $($value:ident)?
    ),*) -> $result:ident;)*) => {
        /// An entry point with its arguments.
        #[derive(Clone, Debug, PartialEq, Eq)]
        pub enum Call {
            $($call { $($argument: $(Vec<$read>)? $(Vec<$written>)? $($value)?),* },)*
        }

        /// What a call returned, and every buffer that it was lent for writing.
        #[derive(Clone, Debug, PartialEq, Eq)]
        pub enum Outcome {
            $($call { returned: $result, $($($argument: Vec<$written>,)?)* },)*
            /// The unit panicked, or wrote where it was lent nothing for writing.
            Panicked,
        }

        impl Call {
            pub fn made_by(&self, unit: &dyn Unit) -> Outcome {
                match self.clone() {
                    $(Call::$call { $($argument),* } => {
                        $($(let mut $argument: Vec<$written> = $argument;)?)*
                        let returned = unit.$name($(
                            $(&$argument as &[$read])?
                            $(&mut $argument as &mut [$written])?
                            $(argument!($argument $value))?
                        ),*);
                        Outcome::$call { returned, $($($argument: argument!($argument $written),)?)* }
                    })*
                }
            }

            /// The call whose text this is.
            pub fn parse(text: &str) -> Option<Call> {
                let mut words = text.split_whitespace();
                let name = words.next()?;
                $(if name == stringify!($name) {
                    let call = Call::$call { $($argument: Argument::parse(words.next()?)?),* };
                    return words.next().is_none().then_some(call);
                })*
                None
            }

            /// The entry point's name.
            pub fn name(&self) -> &'static str {
                match self {
                    $(Call::$call { .. } => stringify!($name),)*
                }
            }

            fn arguments(&self) -> Vec<String> {
                match self {
                    $(Call::$call { $($argument),* } => vec![$($argument.text()),*],)*
                }
            }

            /// The buffers that are lent for writing.
            pub fn written(&self) -> Vec<Named<'_>> {
                match self {
                    $(Call::$call { $($($argument: argument!($argument $written),)?)* .. } => {
                        vec![$($((stringify!($argument), argument!($argument $written)),)?)*]
                    })*
                }
            }
        }

        impl Outcome {
            /// The buffers that were lent for writing, as the call left them.
            pub fn written(&self) -> Vec<Named<'_>> {
                match self {
                    $(Outcome::$call { $($($argument: argument!($argument $written),)?)* .. } => {
                        vec![$($((stringify!($argument), argument!($argument $written)),)?)*]
                    })*
                    Outcome::Panicked => Vec::new(),
                }
            }

            pub fn returned(&self) -> Option<&dyn Returned> {
                match self {
                    $(Outcome::$call { returned, .. } => Some(returned),)*
                    Outcome::Panicked => None,
                }
            }
        }
    };
}

entry_points!(calls);

impl Display for Call {
    fn fmt(&self, formatter: &mut Formatter<'_>) -> fmt::Result {
        write!(formatter, "{} {}", self.name(), self.arguments().join(" "))
    }
}

impl Outcome {
    /// Where two outcomes differ first, so that long texts need not be read for it.
    pub fn difference(&self, other: &Outcome) -> String {
        let first = |((name, ours), (_, theirs)): (Named, Named)| {
            let offset = ours.iter().zip(theirs).position(|(our, their)| our != their)?;
            Some(format!("byte {offset} of the {name}"))
        };
        let mut pairs = self.written().into_iter().zip(other.written());
        pairs.find_map(first).unwrap_or_else(|| "what it returns, or a promise".into())
    }
}

impl Display for Outcome {
    fn fmt(&self, formatter: &mut Formatter<'_>) -> fmt::Result {
        write!(formatter, "{}", self.returned().map_or("panicked".into(), Returned::text))?;
        self.written()
            .into_iter()
            .try_for_each(|(name, bytes)| write!(formatter, "\n  {name} {}", hex(bytes)))
    }
}
