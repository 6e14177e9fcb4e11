//! Faults in packing segments, each on its own.

use second::{pack, Done};

use super::lists::{whole, MOST};

type Pack = fn(&[u8], &[u64], &mut [u8]) -> Done;

pub const PACKING: [(&str, Pack); 19] = [
    ("a packed length is little-endian", is_little_endian),
    ("the writer gives 11 before 10", |b, n, l| failed_if(n.len() > MOST, 11, || pack(b, n, l))),
    ("8 comes before 11", |b, n, l| eight_before(b, n, l, 11)),
    ("8 comes before 10", |b, n, l| eight_before(b, n, l, 10)),
    ("a length is kept in 16 bits", |b, n, l| pack(b, &kept_in(n, 16), l)),
    ("a length is kept in 32 bits", |b, n, l| pack(b, &kept_in(n, 32), l)),
    ("the sum alone is judged, and wraps", |b, n, l| {
        let sum = n.iter().fold(0, |sum: u64, length| sum.wrapping_add(*length));
        failed_if(sum == b.len() as u64 && sum != added(n), 0, || pack(b, n, l))
    }),
    ("65,535 is too long", |b, n, l| failed_if(n.contains(&65_535), 10, || pack(b, n, l))),
    ("bytes left over are passed over", |b, n, l| pack(&b[..b.len().min(added(n) as usize)], n, l)),
    ("the last segment is filled up", |b, n, l| {
        let filled = [b, &[0]].concat();
        pack(if added(n) == filled.len() as u64 { &filled } else { b }, n, l)
    }),
    ("64 segments are packed", |b, n, l| {
        pack(b, if n.len() == 64 && n[63] == 0 { &n[..63] } else { n }, l)
    }),
    ("63 segments are too many to pack", |b, n, l| {
        let adds_up = added(n) == b.len() as u64;
        failed_if(n.len() == MOST && adds_up, 11, || pack(b, n, l))
    }),
    ("lengths are counted in a byte", |b, n, l| {
        let empty = n.iter().all(|length| *length == 0);
        pack(b, if empty { &n[..n.len() % 256] } else { n }, l)
    }),
    ("no lengths are damaged", |b, n, l| failed_if(n.is_empty(), 10, || pack(b, n, l))),
    ("an exact list has no room", |b, n, l| {
        let room = l.len().saturating_sub(1);
        pack(b, n, &mut l[..room])
    }),
    ("a list may miss a byte of room", |b, n, l| {
        let mut roomy = [&*l, &[0]].concat();
        let done = pack(b, n, &mut roomy);
        l.copy_from_slice(&roomy[..l.len()]);
        done
    }),
    ("the byte behind the list is zeroed", |b, n, l| {
        let done = pack(b, n, l);
        l.get_mut(done.length).filter(|_| done.number == 0).into_iter().for_each(|byte| *byte = 0);
        done
    }),
    ("a refusal clears the list", |b, n, l| {
        let done = pack(b, n, l);
        l.iter_mut().filter(|_| done.number != 0).for_each(|byte| *byte = 0);
        done
    }),
    ("a list without room is begun", is_begun_without_room),
];

fn failed_if(chosen: bool, number: u32, sound: impl FnOnce() -> Done) -> Done {
    if chosen {
        Done { number, length: 0 }
    } else {
        sound()
    }
}

fn eight_before(bytes: &[u8], lengths: &[u64], list: &mut [u8], number: u32) -> Done {
    let done = pack(bytes, lengths, list);
    let short = list.len() < bytes.len() + 2 * lengths.len();
    failed_if(done.number == number && short, 8, || done)
}

/// The sum of lengths, held at the largest number.
fn added(lengths: &[u64]) -> u64 {
    lengths.iter().fold(0, |sum, length| sum.saturating_add(*length))
}

fn kept_in(lengths: &[u64], width: u32) -> Vec<u64> {
    lengths.iter().map(|length| length % (1 << width)).collect()
}

fn is_little_endian(bytes: &[u8], lengths: &[u64], list: &mut [u8]) -> Done {
    let done = pack(bytes, lengths, list);
    for place in whole(&list[..done.length]) {
        list[place.start - 2..place.start].reverse();
    }
    done
}

fn is_begun_without_room(bytes: &[u8], lengths: &[u64], list: &mut [u8]) -> Done {
    let done = pack(bytes, lengths, list);
    if done.number == 8 {
        let mut roomy = vec![0; bytes.len() + 2 * lengths.len()];
        pack(bytes, lengths, &mut roomy);
        list.copy_from_slice(&roomy[..list.len()]);
    }
    done
}
