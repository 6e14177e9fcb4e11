//! Units with one fault each in reading a message from the wire, or in writing a response.

use second::{Done, Message};

use super::faulty_writer::write;
use super::faulty_written::{read_cancel, read_response};
use crate::comparison::unit::{Functions, SOUND};

type Read = fn(&[u8], &mut [u8]) -> Message;
type Write = fn(&[u8], u8, &mut [u8]) -> Done;

macro_rules! faults {
    (
        both { $($both:ident: $both_name:literal,)* }
        cancels { $($cancel:ident: $cancel_name:literal,)* }
        responses { $($response:ident: $response_name:literal,)* }
        written { $($written:ident: $written_name:literal,)* }
    ) => {
        /// What a reader or a writer does otherwise than it should.
        #[derive(Clone, Copy, Debug, PartialEq, Eq)]
        pub enum Fault {
            Nothing,
            $($both,)*
            $($cancel,)*
            $($response,)*
            $($written,)*
        }

        const CANCELS: &[(&str, Read)] = &[
            $(($both_name, |message, record| read_cancel(Fault::$both, message, record)),)*
            $(($cancel_name, |message, record| read_cancel(Fault::$cancel, message, record)),)*
        ];
        const RESPONSES: &[(&str, Read)] = &[
            $(($both_name, |message, answer| read_response(Fault::$both, message, answer)),)*
            $(($response_name, |message, answer| {
                read_response(Fault::$response, message, answer)
            }),)*
        ];
        const WRITTEN: &[(&str, Write)] = &[
            $(($written_name, |answer, transaction, message| {
                write(Fault::$written, answer, transaction, message)
            }),)*
        ];
    };
}

/// The unit that has none of the faults.
pub const FAULTLESS: Functions = Functions {
    read_cancel: |message, record| read_cancel(Fault::Nothing, message, record),
    read_response: |message, answer| read_response(Fault::Nothing, message, answer),
    write_response: |answer, transaction, message| {
        write(Fault::Nothing, answer, transaction, message)
    },
    ..SOUND
};

/// All of cancels, by name.
pub fn broken_in_cancels() -> Vec<(&'static str, Functions)> {
    CANCELS.iter().map(|(name, read)| (*name, Functions { read_cancel: *read, ..SOUND })).collect()
}

/// All of responses that are read.
pub fn broken_in_responses_read() -> Vec<(&'static str, Functions)> {
    let broken = |read: &Read| Functions { read_response: *read, ..SOUND };
    RESPONSES.iter().map(|(name, read)| (*name, broken(read))).collect()
}

/// All of responses that are written.
pub fn broken_in_responses_written() -> Vec<(&'static str, Functions)> {
    let broken = |write: &Write| Functions { write_response: *write, ..SOUND };
    WRITTEN.iter().map(|(name, write)| (*name, broken(write))).collect()
}

faults! {
    both {
        ChoicePadding: "the padding of the choice is not judged",
        FramePadding: "the padding of the frame's criticality is not judged",
        ValueExtension: "the extension bit of the value is not judged",
        ValuePadding: "the padding of the value is not judged",
        ElementPadding: "the padding of an element's criticality is not judged",
        ItemPadding: "the padding of an item's criticality is not judged",
        ExtensionPadding: "the padding of an extension's criticality is not judged",
        UnknownPadding: "the padding of what is unknown is not judged",
        TransactionExtension: "the extension bit of the transaction is not judged",
        TransactionPadding: "the padding of the transaction is not judged",
        CellExtension: "the extension bit of an item is not judged",
        IdentityExtension: "the extension bit of an NR CGI is not judged",
        CellPadding: "the padding before a PLMN is not judged",
        IdentityPadding: "the padding behind a cell's 36 bits is not judged",
        PaddingOfTheLastCell: "the padding of the first cell alone is judged",

        LongForm: "a short length in two bytes is read",
        Fragment: "a fragment is read as a length",
        EmptyFrame: "length 0 of a frame is read",
        EmptyElement: "length 0 of an element is read",
        EmptyItem: "length 0 of an item is read",
        EmptyExtension: "length 0 of an extension is read",
        BehindMessage: "bytes behind the message are passed over",
        BehindElements: "bytes behind the elements are passed over",
        BehindContents: "bytes behind an element's contents are passed over",
        BehindCell: "bytes behind an item's contents are passed over",
        BehindCells: "bytes behind the last item are passed over",
        CutElements: "elements may be fewer than their count",
        CutCells: "items may be fewer than their count",
        UncountedElements: "elements are read to the end, whatever their count",
        ElementsInAByte: "elements are counted in a byte",
        ItemsInAByte: "items are counted in a byte",
        ExtensionsInAByte: "extensions are counted in a byte",
        CountAsItStands: "the count of items is taken as it stands",
        Most511: "512 cells are too many",
        Most513: "513 cells are read",
        NoElements: "no elements are badly encoded",

        FrameCriticality3: "criticality 3 of a frame is read",
        FrameMustReject: "a frame must be marked reject",
        UnknownCriticality3: "criticality 3 of what is unknown is ignored",
        ItemCriticality3: "criticality 3 of an unknown item is ignored",
        KnownCriticality3: "criticality 3 of a known element is judged",
        ItemsCriticality3: "criticality 3 of a cell's item is judged",
        KnownMustReject: "a known element must be marked reject",
        KnownIsIgnored: "a known element marked ignore is skipped",
        NotifyIsReject: "notify counts as reject",
        RejectIsSkipped: "an unknown element marked reject is skipped",
        UnknownEnds: "an unknown element ends the elements",
        UnknownTwice: "the same unknown element twice is a repeat",
        UnknownHasOrder: "an unknown element must be behind the known ones",
        ItemIsSkipped: "an item of another kind is skipped",
        ItemIs15: "an item of another kind gives 15 however it is marked",
        ItemIs16: "an item of another kind gives 16 however it is marked",
        ItemIsLookedInto: "contents of an item of another kind are judged",
        ItemIsAnElement: "an item is known among the elements",
        ElementIsAnItem: "the list's own identifier is an item's",
        NidIsKnown: "a NID is known",
        ElementIsAnExtension: "an element is known among the extensions",
        NoDepth: "extensions are passed over",
        NoCellDepth: "an item's extensions are not judged for reject",
        NoIdentityDepth: "an NR CGI's extensions are not judged for reject",
        NoExtensions: "extensions are badly encoded",
        FirstExtension: "the first extension alone is judged for reject",

        FifteenFirst: "15 comes before 13",
        SixteenFirst: "16 comes before 13",
        SixteenBeforeFifteen: "16 comes before 15",
        FirstProblem: "the first problem is given",
        EightBeforeThirteen: "8 comes before 13",
        FourteenFirst: "14 comes before the frame is judged",
        OthersAreJudged: "another message is judged whole",
        AnyChoice: "the choice is not read",
        AnyCode: "the procedure code is not read",
        ChoiceExtensionOfAByte: "a choice's extension has a code of one byte",
        CodeOfTwoBytes: "the lower byte of a choice's extension is a code",

        NoTransaction: "a transaction may be missing",
        Repeats: "a repeated element is taken",
        RepeatsUnjudged: "contents of a repeated element are not judged",
        AnyOrder: "known elements come in any order",

        SortedCells: "cells are sorted",
        RepeatedCells: "repeated cells are dropped",
        PlmnSwapped: "a PLMN has its bytes swapped",
        NarrowCell: "a cell has 32 bits",
        WideCell: "a cell has 40 bits",

        ExactHasNoRoom: "what fits exactly has no room",
        MissesAByte: "a byte of room may be missing",
        ClearsTheRest: "the byte behind what was written is zeroed",
        RefusalClears: "a refused message clears the buffer",
        RefusalHasTransaction: "a refused message has its transaction",
        RefusalHasLength: "without room the length is told",
    }
    cancels {
        AllExtension: "the extension bit of cancel-all is not judged",
        AllPadding: "the padding of cancel-all is not judged",
        TextExtension: "the extension bit of the notification is not judged",
        TextPadding: "the padding of the notification is not judged",
        NoTextDepth: "a notification's extensions are passed over",
        SevenBeforeSixteen: "7 comes before 16",
        EightBeforeSeven: "8 comes before 7",
        NoRequested: "a requested count may be missing",
        TextBeforeAll: "a notification may come before cancel-all",
        ZeroRequested: "the requested count is not carried",
        SwappedRequested: "the requested count has its bytes swapped",
        TextIsAligned: "message identifier and serial number are aligned",
        AllDropsText: "cancel-all drops the notification",
        AnyList: "an area is told without a list",
        OldVersion: "the record has version 1",
    }
    responses {
        EqualCells: "equal cells are read",
        AnyCells: "cells that descend are read",
        FirstPair: "the first two cells alone are compared",
        LastPair: "the last two cells alone are compared",
        OrderOfParts: "cells ascend by their 36 bits alone",
        OrderOfPlmns: "cells ascend by their PLMN alone",
        SeventeenBeforeSixteen: "17 comes before 16",
        EightBeforeSeventeen: "8 comes before 17",

        OtherList: "the other response's list is known",
        OtherItem: "the other response's item is known",
        DiagnosticsAreKnown: "diagnostics are known",
        DiagnosticsTwice: "diagnostics twice are a repeat",
        DiagnosticsLast: "diagnostics must be behind the list",
        DedicatedIsKnown: "the dedicated list is known",
        ListIsMandatory: "a list must be there",

        KindOfAList: "without a list a response is to a start",
        KindOfACancel: "every response is to a cancel",
        CodeIsTheKind: "the procedure code is the kind",
        NoCounts: "counts are not read",
        SwappedCounts: "a count has its bytes swapped",
        CountOfAStart: "a start has a count",
        CountFirst: "a count stands before the extensions of its NR CGI",
        CountLast: "a count stands behind the extensions of its item",
        AnswerHasText: "an answer that is read has an identifier",
        RowsInAByte: "rows are counted in a byte",
        LaterAnswer: "an answer that is read has version 2",
        ContentFirst: "content stands before the count",
    }
    written {
        AnyMark: "an answer's mark is not judged",
        AnyVersion: "an answer's version is not judged",
        VersionInAByte: "an answer's version is a byte",
        AnyKind: "any kind but a start's is a cancel's",
        KindOfARestart: "a restart's answer is written",
        ZeroText: "identifier and serial number must be 0",
        LongerAnswer: "bytes behind the rows are passed over",
        ShorterAnswer: "rows may be fewer than their count",
        MostRows511: "512 rows are too many",
        MostRows513: "513 rows are written",
        NoRows: "an answer must have a row",
        EqualRows: "rows with equal cells are written",
        AnyRows: "rows that descend are written",
        FirstRows: "the first two rows alone are compared",
        RowsByParts: "rows ascend by their lower 32 bits",
        LargeCell: "a cell of 2^60 is written",
        LargeLastCell: "the first cell alone is judged for its size",
        LargestCell: "the largest cell is refused",
        AnyContent: "content is not judged",
        ContentInTwoBytes: "the lower half of content alone is judged",
        AnyCountOfAStart: "a start's counts are not judged",
        CountOfACancel: "a cancel's counts must be 0",
        EightFirst: "8 comes before 17 in writing",
        ExactMessage: "an exact message has no room",
        MessageMissesAByte: "a message may miss a byte of room",
        RoomOfAnAnswer: "a message needs the room of its answer",
        RestIsCleared: "the byte behind the message is zeroed",
        BegunWithoutRoom: "a message is begun without room",
        LengthWithoutRoom: "a message without room has its length",

        Ngap: "a response begins as in NGAP",
        Initiating: "a response is an initiating message",
        Codes: "the procedure codes are swapped",
        Ignored: "elements are marked ignore",
        IgnoredItems: "items are marked ignore",
        LongLengths: "every length is in two bytes",
        LengthsOfAByte: "lengths up to 255 are in one byte",
        EmptyList: "a list with no rows is written",
        TwoElements: "two elements are told without a list",
        NoTransactionWritten: "the transaction is 0",
        SignedTransaction: "a transaction above 127 has its extension bit set",
        Lists: "the lists are swapped",
        ItemsAreLists: "an item has its list's identifier",
        CountOfRows: "the count of rows stands as it is",
        RowsOfAByte: "rows are counted in a byte on the wire",
        PlmnBytes: "a PLMN has its bytes swapped on the wire",
        PartAtTheEnd: "a cell's 36 bits stand behind their padding",
        NarrowPart: "a cell has 32 bits on the wire",
        CountsOfStarts: "a start's items have counts",
        NoCountsOfCancels: "a cancel's items have no counts",
        CountBytes: "a count has its bytes swapped on the wire",
        UnalignedCount: "a count is not aligned",
        ContentBefore: "content stands before the count in what is written",
    }
}
