//! A library behind the C surface, as a unit. All unsafe calls are here.

pub mod in_c;

use second::{Done, Message, Reading, Request};

use in_c::{InC, C};

use crate::comparison::entry_points::entry_points;
use crate::comparison::part::Part;
use crate::comparison::unit::Unit;

/// How buffers are lent to C.
pub trait Lender {
    fn for_reading<T: Element>(&self, buffer: &[T]) -> impl Lent<T>;
    fn for_writing<T: Element>(&self, buffer: &mut [T]) -> impl Lent<T>;
}

/// What buffers are of.
pub trait Element: Copy + PartialEq + std::fmt::Debug + From<u8> {}

impl Element for u8 {}
impl Element for u64 {}

/// A buffer that is lent.
///
/// # Safety
///
/// Until it is given back, the pointer is good for the length, and nobody else has these elements.
/// The pointer is not null. Where the buffer is lent for reading, it need not be good for writing.
pub unsafe trait Lent<T> {
    fn pointer(&mut self) -> *mut T;
    fn length(&self) -> usize;
    fn give_back(self);
}

pub struct Library<L> {
    pub surface: Surface,
    pub lender: L,
}

macro_rules! surface {
    ($($call:ident = $name:ident($($argument:ident:
        $(*const $read:ident, $read_length:ident: usize)?
        $(*mut $written:ident, $written_length:ident: usize)?
        $($value:ident)?
    ),*) -> $result:ident;)*) => {
        /// A library's functions.
        pub struct Surface {
            $(pub $name: unsafe extern "C" fn(
                $($(*const $read, usize)? $(*mut $written, usize)? $(C<$value>)?),*
            ) -> C<$result>,)*
        }

        impl<L: Lender> Unit for Library<L> {
            $(#[inline]
            fn $name(
                &self,
                $($argument: $(&[$read])? $(&mut [$written])? $($value)?),*
            ) -> $result {
                $(
                    $(let mut $argument = self.lender.for_reading::<$read>($argument);)?
                    $(let mut $argument = self.lender.for_writing::<$written>($argument);)?
                )*
                // SAFETY: each pointer is good for its length, as Lent promises.
                let returned = unsafe {
                    (self.surface.$name)($(
                        $(Lent::<$read>::pointer(&mut $argument), $argument.length())?
                        $(Lent::<$written>::pointer(&mut $argument), $argument.length())?
                        $(<$value>::to_c($argument))?
                    ),*)
                };
                $(
                    $(Lent::<$read>::give_back($argument);)?
                    $(Lent::<$written>::give_back($argument);)?
                )*
                InC::from_c(returned)
            })*
        }
    };
}

entry_points!(surface);

/// The surface of the library whose functions' names begin so.
macro_rules! linked {
    ($prefix:literal $($call:ident = $name:ident($($argument:ident: $type:ty),*) -> $result:ident;)*) => {{
        extern "C" {
            $(
                #[link_name = concat!($prefix, "_", stringify!($name))]
                fn $name($($argument: C<$type>),*) -> C<$result>;
            )*
        }
        Surface { $($name),* }
    }};
}

pub(crate) use linked;
