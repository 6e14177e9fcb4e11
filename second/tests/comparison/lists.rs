//! Segments, and the lists and packings that break one rule each, with document 02's refusal.

use std::ops::Range;

use crate::given::random::Random;
use crate::given::wrong_records::Wrong;

/// The most additional segments, and the longest one.
pub const MOST: usize = 63;
pub const LONGEST: usize = 65_535;

/// Counts above 63, among them such that a counter of 8 or of 16 bits takes for a legal one.
const TOO_MANY: [usize; 11] = [64, 65, 66, 127, 128, 255, 256, 257, 256 + MOST, 1000, 100_000];
const WRAPPING: [usize; 3] = [1 << 16, (1 << 16) + 1, (1 << 16) + MOST];

pub type Segments = Vec<Vec<u8>>;

/// A legal count of segments, mostly at a bound.
pub fn count(random: &mut Random) -> usize {
    let any = random.below(MOST + 1);
    random.pick(&[0, 1, 2, MOST - 1, MOST, any, any, any])
}

/// Segments of small and bounding lengths, often empty.
pub fn segments(random: &mut Random, count: usize) -> Segments {
    let lengths: &[usize] = match random.below(4) {
        0 => &[0],
        1 => &[0, 1],
        2 => &[0, 1, 2, 3, 4],
        _ => &[0, 1, 2, 9, 40, 255, 256, 257],
    };
    let lengths: Vec<usize> = (0..count).map(|_| random.pick(lengths)).collect();
    lengths.into_iter().map(|length| random.bytes(length)).collect()
}

/// "each behind a 2-byte length, back to back"
pub fn packed(segments: &[Vec<u8>]) -> Vec<u8> {
    let behind_length = |segment: &Vec<u8>| {
        let (high, low) = (segment.len() / 256, segment.len() % 256);
        [&[high as u8, low as u8], &segment[..]].concat()
    };
    segments.iter().flat_map(behind_length).collect()
}

/// Where the segments lie that are whole, up to the list's end or a part segment.
pub fn places(more: &[u8], length: fn([u8; 2]) -> u16) -> Vec<Range<usize>> {
    let mut places: Vec<Range<usize>> = Vec::new();
    let mut start = 2;
    while let Some(told) = more.get(start - 2..start) {
        let end = start + usize::from(length([told[0], told[1]]));
        if end > more.len() {
            break;
        }
        places.push(start..end);
        start = end + 2;
    }
    places
}

pub fn whole(more: &[u8]) -> Vec<Range<usize>> {
    places(more, u16::from_be_bytes)
}

/// Where the whole segments end.
pub fn ends(more: &[u8]) -> usize {
    whole(more).last().map_or(0, |place| place.end)
}

/// Lists that are refused for every k.
pub fn wrong_lists(random: &mut Random) -> Vec<Wrong> {
    let mut wrongs = Vec::new();
    let mut push = |name: String, number, bytes| wrongs.push(Wrong { name, number, bytes });
    for count in [0, 1, 2, 62, 63, 64, 65, 300] {
        let list = packed(&segments(random, count));
        let behind = |part: &[u8]| [&list[..], part].concat();
        push(format!("half a length behind {count} segments"), 10, behind(&[0]));
        push(format!("a length alone behind {count} segments"), 10, behind(&[0, 1]));
        push(format!("the longest alone behind {count} segments"), 10, behind(&[255, 255]));
        push(format!("a segment cut by 1 behind {count}"), 10, behind(&[0, 3, 7, 7]));
        push(format!("a byte too many behind {count} segments"), 10, behind(&[0, 2, 7, 7, 7]));
        let bytes = random.bytes(LONGEST - 1);
        push(
            format!("the longest cut by 1 behind {count}"),
            10,
            [&behind(&[255; 2]), &bytes[..]].concat(),
        );
    }
    for count in TOO_MANY.into_iter().chain(WRAPPING) {
        push(format!("{count} empty segments"), 11, vec![0; 2 * count]);
        push(format!("half a length behind {count} empty segments"), 10, vec![0; 2 * count + 1]);
        if count <= 1000 {
            push(format!("{count} segments"), 11, packed(&segments(random, count)));
        }
    }
    wrongs
}

/// What the writer is given: the bytes of all segments, their lengths, and a buffer's size.
#[derive(Clone)]
pub struct Packing {
    pub name: String,
    pub number: u32,
    pub bytes: Vec<u8>,
    pub lengths: Vec<u64>,
    pub room: usize,
}

impl Packing {
    /// An accepted one, with exactly the room that it needs.
    pub fn of(segments: &[Vec<u8>]) -> Packing {
        let lengths = segments.iter().map(|segment| segment.len() as u64).collect();
        let room = packed(segments).len();
        Packing { name: "legal".into(), number: 0, bytes: segments.concat(), lengths, room }
    }

    fn named(self, name: &str, number: u32) -> Packing {
        let name = format!("{name}: {} lengths, room {}", self.lengths.len(), self.room);
        Packing { name, number, ..self }
    }

    fn with_lengths(&self, more: &[u64]) -> Packing {
        let lengths = [&self.lengths[..], more].concat();
        Packing { lengths, ..self.clone() }
    }
}

/// Packings that are refused: each also with no room at all, since 8 comes last.
pub fn wrong_packings(random: &mut Random) -> Vec<Packing> {
    let mut wrongs = Vec::new();
    for count in [1, 2, 60, 61, 62, 63] {
        let mut legal = Packing::of(&segments(random, count));
        wrongs.extend([1, 2, legal.room].map(|short| {
            Packing { room: legal.room.saturating_sub(short), ..legal.clone() }.named("no room", 8)
        }));
        legal.room += 1000;
        wrongs.extend(not_adding_up(&legal));
    }
    wrongs.extend([64, 65, 100, 256, 1000].map(|count| {
        let many = Packing::of(&segments(random, count));
        many.named("too many", 11)
    }));
    wrongs.extend(TOO_MANY.into_iter().chain(WRAPPING).flat_map(|count| {
        let lengths = vec![0; count];
        let empty = Packing { lengths, room: 2 * count, ..Packing::of(&[]) };
        let over = Packing { bytes: vec![7], ..empty.clone() };
        [empty.named("too many and empty", 11), over.named("too many, a byte over", 10)]
    }));
    let longest = Packing { bytes: random.bytes(LONGEST + 1), ..Packing::of(&[]) };
    let longest = Packing { room: longest.bytes.len() + 8, ..longest };
    wrongs.push(longest.with_lengths(&[LONGEST as u64 + 1]).named("one too long", 10));
    wrongs.push(longest.with_lengths(&[LONGEST as u64]).named("a byte over", 10));
    let roomless: Vec<Packing> = wrongs.iter().filter(|wrong| wrong.number != 8).cloned().collect();
    wrongs.extend(roomless.into_iter().map(|wrong| Packing { room: 0, ..wrong }));
    wrongs
}

/// Lengths that add up to less or more than the bytes, or only if something overflows.
fn not_adding_up(legal: &Packing) -> Vec<Packing> {
    let bytes = legal.bytes.len() as u64;
    let last = legal.lengths.len() - 1;
    let mut wrongs: Vec<Packing> = [&[1][..], &[u64::MAX, 1], &[1 << 63, 1 << 63], &[1 << 16]]
        .into_iter()
        .chain([&[LONGEST as u64, 1][..], &[1 << 32], &[u64::MAX], &[u64::MAX - bytes]])
        .map(|more| legal.with_lengths(more).named("lengths over", 10))
        .collect();
    for over in [1, 1 << 16, 1 << 32, 1 << 63, (LONGEST as u64) << 48] {
        let mut wrong = legal.clone();
        wrong.lengths[last] += over;
        wrongs.push(wrong.named(&format!("the last length over by {over}"), 10));
        let mut wrong = legal.clone();
        wrong.lengths[0] = wrong.lengths[0].wrapping_sub(over);
        wrongs.push(wrong.named(&format!("the first length short by {over}"), 10));
    }
    let longer = [&legal.bytes[..], &[7]].concat();
    wrongs.push(Packing { bytes: longer, ..legal.clone() }.named("a byte over", 10));
    wrongs
}
