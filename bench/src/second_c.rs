//! The second implementation as C functions of the same shape, so that it is called as the others
//! are. They have names in the program, so that callgrind can be told to count one of them.

use std::slice::{from_raw_parts, from_raw_parts_mut};

use second::{Done, Message, Reading, Request};

use crate::comparison::entry_points::entry_points;
use crate::comparison::part::{segment_of_lent, Part};
use crate::comparison::unit::{Functions, SOUND};
use crate::surface::in_c::{InC, C};
use crate::surface::Surface;

/// Without a copy of what is lent.
const FUNCTIONS: Functions = Functions { segment: segment_of_lent, ..SOUND };

macro_rules! exported {
    ($($call:ident = $name:ident($($argument:ident:
        $(*const $read:ident, $read_length:ident: usize)?
        $(*mut $written:ident, $written_length:ident: usize)?
        $($value:ident)?
    ),*) -> $result:ident;)*) => {{
        $(
            // SAFETY: the caller lends pointers that are good for their lengths and don't overlap.
            #[export_name = concat!("second_", stringify!($name))]
            unsafe extern "C" fn $name($($argument:
                $(*const $read, $read_length: usize)?
                $(*mut $written, $written_length: usize)?
                $(C<$value>)?
            ),*) -> C<$result> {
                let returned = (FUNCTIONS.$name)($(
                    $(unsafe { from_raw_parts($argument, $read_length) })?
                    $(unsafe { from_raw_parts_mut($argument, $written_length) })?
                    $(<$value>::from_c($argument))?
                ),*);
                returned.to_c()
            }
        )*
        Surface { $($name),* }
    }};
}

pub const SURFACE: Surface = entry_points!(exported);
