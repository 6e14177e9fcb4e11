//! Segments read and packed: what lies at a bound, each once, and then in rounds.

use super::call::Call;
use super::cases::{Cases, Compared};
use super::compare::Difference;
use super::lists::{
    count, ends, packed, segments, whole, wrong_lists, wrong_packings, Packing, Segments, LONGEST,
    MOST,
};

impl Cases<'_> {
    /// What lies at a bound, then rounds until at least so many calls are made.
    pub fn run_segments(&mut self, calls: u64) -> Compared {
        self.counts()?;
        self.cuts()?;
        self.wrong_packings()?;
        self.wrong_lists()?;
        self.longest()?;
        self.changed_lengths()?;
        self.small_lists()?;
        while self.compare.calls < calls {
            self.whole_lists()?;
            self.damaged_lists()?;
            self.packings()?;
            self.any_lists()?;
        }
        Ok(())
    }

    /// A first SIB message: any bytes, some of them like a list.
    fn first(&mut self) -> Vec<u8> {
        let any = self.random.below(300);
        let length = self.random.pick(&[0, 1, 2, 3, any]);
        match self.random.below(3) {
            0 => packed(&segments(&mut self.random, length % 5)),
            _ => self.random.bytes(length),
        }
    }

    /// k at, below and above the last, and such as are a legal one but for their upper bits.
    fn ks(&mut self, last: usize) -> Vec<usize> {
        let any = self.random.below(last.min(MOST) + 1);
        let wrapping = [8, 16, 32, 63].map(|width| any + (1 << width));
        let bounds = [0, 1, any, last.saturating_sub(1), last, last + 1, last + 2];
        let fixed = [62, 63, 64, 65, usize::MAX - 1, usize::MAX];
        [&bounds[..], &fixed, &wrapping].concat()
    }

    fn ask(&mut self, more: &[u8], ks: &[usize]) -> Compared {
        let first = self.first();
        ks.iter().try_for_each(|k| self.compare.segment(&first, more, *k).map(drop))
    }

    /// Asks for some of the bounding k.
    fn ask_some(&mut self, more: &[u8], last: usize, some: usize) -> Compared {
        let ks = self.ks(last);
        let picked: Vec<usize> = (0..some).map(|_| self.random.pick(&ks)).collect();
        self.ask(more, &picked)
    }

    fn pack(&mut self, packing: &Packing) -> Compared {
        let list = self.buffer(packing.room);
        self.compare.pack(&packing.bytes, &packing.lengths, list).map(drop)
    }

    /// "each list has one packing, and reading it gives each segment back"; and what was read packs
    /// to the same list again.
    fn round_trip(&mut self, segments: &Segments) -> Compared {
        let Packing { bytes, lengths, room, .. } = Packing::of(segments);
        let buffer = self.buffer(room);
        let (_, list) = self.compare.pack(&bytes, &lengths, buffer)?;
        if list != packed(segments) {
            return Err(told("the list has not its one packing", segments));
        }
        let first = self.first();
        let mut read = Segments::new();
        for k in 0..=segments.len() {
            read.push(self.compare.segment(&first, &list, k)?.bytes(&first, &list).to_vec());
        }
        if read[0] != first || read[1..] != segments[..] {
            return Err(told("reading gives not each segment back", segments));
        }
        let Packing { bytes, lengths, .. } = Packing::of(&read[1..]);
        let buffer = self.buffer(room);
        let (_, again) = self.compare.pack(&bytes, &lengths, buffer)?;
        if again != list {
            return Err(told("what was read packs to another list", segments));
        }
        Ok(())
    }

    /// Every list of the bytes 0, 1 and 2, up to six of them.
    fn small_lists(&mut self) -> Compared {
        for length in 0..=6 {
            for number in 0..3_u32.pow(length) {
                let digit = |place| (number / 3_u32.pow(place) % 3) as u8;
                let list: Vec<u8> = (0..length).map(digit).collect();
                self.ask(&list, &[0, 1, 2, 3, 4])?;
            }
        }
        Ok(())
    }

    /// Around each bound of the count, of empty and of other segments: every k, every size of a
    /// buffer, there and back.
    fn counts(&mut self) -> Compared {
        for count in [0, 1, 2, MOST - 2, MOST - 1, MOST, MOST + 1, MOST + 2] {
            for given in [vec![vec![]; count], segments(&mut self.random, count)] {
                let ks = self.ks(count);
                self.ask(&packed(&given), &ks)?;
                let exact = Packing::of(&given);
                for room in self.sizes(exact.room) {
                    self.pack(&Packing { room, ..exact.clone() })?;
                }
                if count <= MOST {
                    self.round_trip(&given)?;
                }
            }
        }
        Ok(())
    }

    /// A list of more than 63 segments cut at every byte, so that it ends behind each segment and
    /// within each.
    fn cuts(&mut self) -> Compared {
        let given: Segments = (0..MOST + 5).map(|k| self.random.bytes(k * 3 % 4)).collect();
        let list = packed(&given);
        for length in 0..=list.len() {
            let any = self.random.below(MOST + 5);
            self.ask(&list[..length], &[0, 1, any, MOST, MOST + 1, usize::MAX])?;
        }
        Ok(())
    }

    /// Every other value of every byte of every length of a small list.
    fn changed_lengths(&mut self) -> Compared {
        let lengths = [3, 0, 1, 258];
        let list = packed(&lengths.map(|length| self.random.bytes(length)));
        let starts = [0, 5, 7, 10];
        for offset in starts.into_iter().flat_map(|start| [start, start + 1]) {
            for change in 1..=255 {
                let mut changed = list.clone();
                changed[offset] ^= change;
                self.ask_some(&changed, lengths.len(), 2)?;
            }
        }
        Ok(())
    }

    fn wrong_lists(&mut self) -> Compared {
        for wrong in wrong_lists(&mut self.random) {
            let any = self.random.below(2 * MOST);
            self.ask(&wrong.bytes, &[0, 1, any, MOST, MOST + 1, usize::MAX])?;
        }
        Ok(())
    }

    fn wrong_packings(&mut self) -> Compared {
        for wrong in wrong_packings(&mut self.random) {
            self.pack(&wrong)?;
        }
        Ok(())
    }

    /// The longest segments, alone and 63 of them, a buffer far longer than its list, and a first
    /// SIB message that is longer than an additional one can be.
    fn longest(&mut self) -> Compared {
        for lengths in [vec![LONGEST], vec![0, LONGEST - 1, 1, LONGEST, 32_768, 32_767, 256]] {
            let given = lengths.into_iter().map(|length| self.random.bytes(length)).collect();
            self.round_trip(&given)?;
            self.pack(&Packing { room: 1 << 20, ..Packing::of(&given) })?;
            let list = packed(&given);
            self.ask(&list[..list.len() - 1], &[0, 1, given.len()])?;
        }
        let given = vec![self.random.bytes(LONGEST); MOST];
        self.pack(&Packing::of(&given))?;
        let list = packed(&given);
        self.ask(&list, &[0, 1, MOST, MOST + 1])?;
        self.ask(&[&list[..], &[0]].concat(), &[0, MOST])?;
        let first = self.buffer(LONGEST + 5);
        self.compare.segment(&first, &[], 0).map(drop)
    }

    /// Lists of whole segments, and some around the bound of 63.
    fn whole_lists(&mut self) -> Compared {
        let count = count(&mut self.random);
        let given = segments(&mut self.random, count);
        self.round_trip(&given)?;
        for _ in 0..6 {
            let any = self.random.below(4 * MOST);
            let count = self.random.pick(&[count, MOST - 1, MOST, MOST + 1, any]);
            let list = packed(&segments(&mut self.random, count));
            self.ask_some(&list, count, 4)?;
        }
        Ok(())
    }

    /// Lists around the bound of 63, legal but for a few bytes changed, added or left out.
    fn damaged_lists(&mut self) -> Compared {
        for _ in 0..8 {
            let beyond = self.random.below(MOST + 4);
            let count = self.random.pick(&[2, 5, MOST, MOST + 1, beyond]);
            let mut list = packed(&segments(&mut self.random, count));
            for _ in 0..1 + self.random.below(3) {
                self.damage(&mut list);
            }
            self.ask_some(&list, count, 3)?;
        }
        Ok(())
    }

    fn damage(&mut self, list: &mut Vec<u8>) {
        let offset = self.random.below(list.len() + 1);
        let byte = self.random.pick(&[0, 0, 1, 2, 255]);
        match self.random.below(5) {
            0 => list.insert(offset, byte),
            1 => list.push(byte),
            2 => list.truncate(offset),
            _ if offset == list.len() => {}
            3 => drop(list.remove(offset)),
            _ => list[offset] = self.random.other(list[offset]),
        }
    }

    /// Legal segments and sizes of each kind, some with a length changed.
    fn packings(&mut self) -> Compared {
        for _ in 0..6 {
            let any = count(&mut self.random);
            let count = self.random.pick(&[any, any, MOST, MOST + 1]);
            let exact = Packing::of(&segments(&mut self.random, count));
            for room in self.sizes(exact.room) {
                let mut packing = Packing { room, ..exact.clone() };
                if count > 0 && self.random.one_in(2) {
                    self.change_a_length(&mut packing.lengths);
                }
                self.pack(&packing)?;
            }
        }
        Ok(())
    }

    /// By a little or a lot; half the time another length has it, so that the sum stays.
    fn change_a_length(&mut self, lengths: &mut [u64]) {
        let [one, other] = [0; 2].map(|_| self.random.below(lengths.len()));
        let any = self.random.number();
        let by = self.random.pick(&[1, 1, 1, 256, 1 << 16, 1 << 32, 1 << 63, u64::MAX, any]);
        lengths[one] = lengths[one].wrapping_add(by);
        if self.random.one_in(2) {
            lengths[other] = lengths[other].wrapping_sub(by);
        }
    }

    /// Bytes without sense; mostly small ones, since these are lengths of segments that are there,
    /// and mostly without the part segment that they end in.
    fn any_lists(&mut self) -> Compared {
        for _ in 0..8 {
            let length = self.random.below(400);
            let mut list = self.random.bytes(length);
            if !self.random.one_in(4) {
                let most = self.random.pick(&[2, 3, 5]);
                list.iter_mut().step_by(2).for_each(|byte| *byte = 0);
                list.iter_mut().skip(1).step_by(2).for_each(|byte| *byte %= most);
            }
            if !self.random.one_in(4) {
                list.truncate(ends(&list));
            }
            let last = whole(&list).len();
            self.ask_some(&list, last, 3)?;
        }
        Ok(())
    }
}

/// With the packing as a call that can be made again.
fn told(what: &str, segments: &[Vec<u8>]) -> Difference {
    let Packing { bytes, lengths, room, .. } = Packing::of(segments);
    let call = Call::Pack { bytes, lengths, list: vec![0; room] };
    format!("{what}:\n{call}\n")
}
