//! The functions under comparison.

use second::{Done, Message, Reading, Request};

use super::entry_points::entry_points;
use super::part::{self, Part};

macro_rules! unit {
    ($($call:ident = $name:ident($($argument:ident:
        $(*const $read:ident, $read_length:ident: usize)?
        $(*mut $written:ident, $written_length:ident: usize)?
        $($value:ident)?
    ),*) -> $result:ident;)*) => {
        pub trait Unit {
            $(fn $name(
                &self,
                $($argument: $(&[$read])? $(&mut [$written])? $($value)?),*
            ) -> $result;)*
        }

        /// A unit of plain functions, so that a broken one is this with a function exchanged.
        #[derive(Clone, Copy)]
        pub struct Functions {
            $(pub $name: fn($($(&[$read])? $(&mut [$written])? $($value)?),*) -> $result,)*
        }

        impl Unit for Functions {
            $(fn $name(
                &self,
                $($argument: $(&[$read])? $(&mut [$written])? $($value)?),*
            ) -> $result {
                (self.$name)($($argument),*)
            })*
        }
    };
}

entry_points!(unit);

/// The second implementation.
pub const SOUND: Functions = Functions {
    build: second::build,
    convert: second::convert,
    apply: second::apply,
    read: second::read,
    write: second::write,
    item: second::item,
    segment: part::segment,
    pack: second::pack,
    read_cancel: second::read_cancel,
    write_response: second::write_response,
    read_response: second::read_response,
};
