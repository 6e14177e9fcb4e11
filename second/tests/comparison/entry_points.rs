//! The entry points, each declared once, as `host/include/pws.h` has it. The units, the calls and
//! the C surface are made of these lines, for the tests here and for `bench/`.

/// Hands every entry point on to a macro, behind what that one is given besides: the name of its
/// call, and its own name, arguments and result. A pointer stands before its length, and the two
/// are one slice in Rust: `*const` lent for reading, `*mut` for writing.
macro_rules! entry_points {
    ($made_by:ident $($given:tt)*) => {
        $made_by! {
            $($given)*
            Build = build(heads: *const u8, heads_length: usize, table: *mut u8, table_length: usize) -> Done;
            Convert = convert(old: *const u8, old_length: usize, table: *mut u8, table_length: usize) -> Done;
            Apply = apply(table: *mut u8, table_length: usize, record: *const u8, record_length: usize, answer: *mut u8, answer_length: usize) -> Done;
            Read = read(record: *const u8, record_length: usize) -> Reading;
            Write = write(request: Request, items: *const u64, count: usize, record: *mut u8, record_length: usize) -> Done;
            Item = item(record: *const u8, record_length: usize, k: usize) -> u64;
            Segment = segment(first: *const u8, first_length: usize, more: *const u8, more_length: usize, k: usize) -> Part;
            Pack = pack(bytes: *const u8, bytes_length: usize, lengths: *const u64, count: usize, list: *mut u8, list_length: usize) -> Done;
            ReadCancel = read_cancel(message: *const u8, message_length: usize, record: *mut u8, record_length: usize) -> Message;
            WriteResponse = write_response(answer: *const u8, answer_length: usize, transaction: u8, message: *mut u8, message_length: usize) -> Done;
            ReadResponse = read_response(message: *const u8, message_length: usize, answer: *mut u8, answer_length: usize) -> Message;
        }
    };
}

/// The argument, within a repetition over the arguments of one kind.
macro_rules! argument {
    ($argument:ident $kind:ident) => {
        $argument
    };
}

pub(crate) use {argument, entry_points};
