//! The structs of `host/include/pws.h`, each declared once, and what they are in Rust.

use second::{Broadcasts, Done, Message, Reading, Request, Seconds};

use crate::comparison::part::Part;

pub trait InC {
    type C;
    fn to_c(self) -> Self::C;
    fn from_c(in_c: Self::C) -> Self;
}

/// What stands for a type in C.
pub type C<T> = <T as InC>::C;

macro_rules! structs {
    ($($in_c:ident = $in_rust:ident { $($field:ident: $type:ty),* })*) => {
        $(
            #[repr(C)]
            pub struct $in_c {
                $($field: C<$type>),*
            }

            impl InC for $in_rust {
                type C = $in_c;

                #[inline]
                fn to_c(self) -> $in_c {
                    let $in_rust { $($field),* } = self;
                    $in_c { $($field: $field.to_c()),* }
                }

                #[inline]
                fn from_c(in_c: $in_c) -> $in_rust {
                    let $in_c { $($field),* } = in_c;
                    $in_rust { $($field: InC::from_c($field)),* }
                }
            }
        )*
    };
}

structs! {
    PwsDone = Done { number: u32, length: usize }
    PwsRequest = Request { kind: u8, flags: u8, area: u8, identifier: u16, serial: u16, content: u32, period: Seconds, requested: Broadcasts, sib: u8 }
    PwsReading = Reading { number: u32, request: Request, items: usize }
    PwsMessage = Message { number: u32, transaction: u32, length: usize }
}

macro_rules! counts {
    ($($in_rust:ident($in_c:ident))*) => {
        $(impl InC for $in_rust {
            type C = $in_c;

            #[inline]
            fn to_c(self) -> $in_c {
                self.0
            }

            #[inline]
            fn from_c(in_c: $in_c) -> $in_rust {
                $in_rust(in_c)
            }
        })*
    };
}

counts! { Seconds(u32) Broadcasts(u16) }

macro_rules! the_same {
    ($($type:ty),*) => {
        $(impl InC for $type {
            type C = $type;

            #[inline]
            fn to_c(self) -> $type {
                self
            }

            #[inline]
            fn from_c(in_c: $type) -> $type {
                in_c
            }
        })*
    };
}

the_same!(u8, u16, u32, u64, usize, *const u8, *mut u8, *const u64, Part);
