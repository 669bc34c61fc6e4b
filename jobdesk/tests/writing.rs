//! Reading a job into tables and writing it from them, with tables that the test may damage.

use jobdesk::lent::{self, Held, Lent};
use jobdesk::{BYTES, LENGTHS};

/// A job with every command but the end, each at its offset. The reader takes it; the check does not.
const COMMANDS: [&[u8]; 31] = [
    &[0x01, 1],                                        // 0: name 2, below the top
    &[0x01, 2],                                        // 2: name 3, below name 2
    &[0x02, 1],                                        // 4: name 4, a local one
    &[0x10, 0],                                        // 6: type 0
    &[0x11, 0, 0, 0, 0, 0],                            // 8: type 1
    &[0x12, 2, 0, 0],                                  // 14: type 2
    &[0x13, 0, 0, 0, 0, 0, 4, 0, 0, 0, 0, 0, 0, 0],    // 18: type 3
    &[0x14, 0, 2],                                     // 32: type 4
    &[0x15, 0, 2],                                     // 35: type 5
    &[0x20, 2, 0, 7, 0, 0, 0],                         // 38: variable 0
    &[0x20, 4, 0, 0, 0, 0, 0],                         // 45: variable 1
    &[0x21, 4, 0, 0, 0, 0, 0, 0, 0],                   // 52: the rights
    &[0x30, 1, 2, 3, 4],                               // 61: expression 0
    &[0x31],                                           // 66: expression 1
    &[0x32, 0],                                        // 67: expression 2
    &[0x33, 0, 0, 1, 0],                               // 69: expression 3
    &[0x34, 3, 0, 2],                                  // 74: expression 4
    &[0x35, 63, 0, 0, 4, 0],                           // 78: expression 5
    &[0x36, 5, 0, 0, 0],                               // 84: expression 6
    &[0x37, 0, 0, 6, 0],                               // 89: expression 7
    &[0x38, 2, 0, 0, 0],                               // 94: expression 8
    &[0x39, 2, 0],                                     // 99: expression 9
    &[0x3A, 1, 8, 0, 9, 0],                            // 102: expression 10
    &[0x3B, 10, 0, 8, 0, 9, 0, 0, 0],                  // 108: expression 11
    &[0x3C, 2, 1, 0, 1, 0, 255, 255, 255, 255, 11, 0], // 117: expression 12
    &[0x3D, 1, 0, 12, 0],                              // 129: expression 13
    &[0x3E, 62, 4, 1, 0, 13, 0, 0, 0],                 // 134: expression 14
    &[0x3F, 0, 0, 1, 0],                               // 143: expression 15
    &[0x40, 1, 0, 14, 0, 15, 0, 0, 0],                 // 148: expression 16
    &[0x41, 16, 0, 0, 0],                              // 157: expression 17
    &[0x42, 17, 0],                                    // 162: expression 18
];

/// How many expressions it has.
const EXPRESSIONS: usize = 19;

/// The same with so many of its expressions, and the end.
fn job(expressions: usize) -> Vec<u8> {
    let mut job = COMMANDS[..12 + expressions].concat();
    job.push(0xFF);
    job
}

/// How many operands of two bytes each of its expressions has.
const PLACES: [usize; EXPRESSIONS] = [0, 0, 0, 2, 1, 2, 2, 2, 2, 1, 2, 4, 5, 2, 3, 2, 4, 2, 1];

/// Every bit from this one on.
const fn from_bit(bit: u32) -> u64 {
    u64::MAX << bit
}

/// Tables of a caller's own, and counts.
#[derive(Clone, Debug, PartialEq)]
struct Own {
    names: Vec<u16>,
    types: Vec<u64>,
    sets: Vec<u64>,
    values: Vec<u64>,
    heads: Vec<u64>,
    slots: Vec<u16>,
    counts: Vec<u64>,
}

impl Own {
    /// Tables that hold some word, and some number of counts.
    fn filled(word: u16, counts: usize) -> Own {
        let [names, types, sets, values, heads, slots, ..] = LENGTHS;
        let wide = word as u64;
        Own {
            names: vec![word; names],
            types: vec![wide; types],
            sets: vec![wide; sets],
            values: vec![wide; values],
            heads: vec![wide; heads],
            slots: vec![word; slots],
            counts: vec![wide; counts],
        }
    }

    fn read(&mut self, job: &[u8]) -> u64 {
        let Own { names, types, sets, values, heads, slots, counts } = self;
        lent::read(job, Lent { names, types, sets, values, heads, slots }, counts)
    }

    /// The number, and how many bytes or the place.
    fn write(&self, buffer: &mut [u8]) -> (u64, u64) {
        let Own { names, types, sets, values, heads, slots, counts } = self;
        let (held, mut out) = (Held { names, types, sets, values, heads, slots }, [99]);
        (lent::write(held, counts, buffer, &mut out), out[0])
    }

    /// The job that was read.
    fn of(job: &[u8]) -> Own {
        let mut own = Own::filled(0xA5A5, 5);
        assert_eq!(own.read(job), 0);
        own
    }

    /// Fails unless writing is refused so, and leaves a long buffer and an empty one as they were.
    fn refused(&self, number: u64, place: u64) {
        let mut buffer = [0xA5; 2 * BYTES];
        assert_eq!(self.write(&mut buffer), (number, place));
        assert!(buffer.iter().all(|&byte| byte == 0xA5));
        assert_eq!(self.write(&mut []), (number, place));
    }

    /// Fails unless the job is written, and nothing past it.
    fn written(&self, job: &[u8]) {
        let mut buffer = [0xA5; 2 * BYTES];
        assert_eq!(self.write(&mut buffer), (0, job.len() as u64));
        let (start, rest) = buffer.split_at(job.len());
        assert_eq!(start, job);
        assert!(rest.iter().all(|&byte| byte == 0xA5));
    }
}

/// The job, read, with some damage.
fn damaged(damage: impl FnOnce(&mut Own)) -> Own {
    let mut own = Own::of(&job(EXPRESSIONS));
    damage(&mut own);
    own
}

#[test]
fn comes_back() {
    let job = job(EXPRESSIONS);
    let own = Own::of(&job);
    assert_eq!(own.counts, [3, 6, 2, 19, 4]);
    assert_eq!((own.names[4], own.names[5], own.types[6]), (0x0201, 0, 0));
    own.written(&job);
}

#[test]
fn the_counts_say_how_much() {
    for expressions in 1..=EXPRESSIONS {
        damaged(|own| own.counts[3] = expressions as u64).written(&job(expressions));
    }
}

#[test]
fn reading_is_refused() {
    for (job, number, place) in [(&[0x01, 1, 0x02][..], 4, 2), (&[0x01, 1, 0x03], 2, 2)] {
        let mut own = Own::filled(0xA5A5, 6);
        assert_eq!(own.read(job), number);
        let mut wanted = Own::filled(0, 6);
        wanted.counts = vec![place, 0xA5A5, 0xA5A5, 0xA5A5, 0xA5A5, 0xA5A5];
        assert_eq!(own, wanted);
    }
}

/// Each table, and the counts, one entry too short.
fn shortened(own: &Own) -> [Own; 7] {
    let mut short = [(); 7].map(|()| own.clone());
    short[0].names.pop();
    short[1].types.pop();
    short[2].sets.pop();
    short[3].values.pop();
    short[4].heads.pop();
    short[5].slots.pop();
    short[6].counts.pop();
    short
}

#[test]
fn short_tables() {
    for own in shortened(&damaged(|_| ())) {
        own.refused(1, 0);
    }
    // Tested first.
    for own in shortened(&Own::filled(0, 5)) {
        own.refused(1, 0);
    }
    for mut own in shortened(&Own::filled(0xA5A5, 5)) {
        let before = own.clone();
        assert_eq!((own.read(&job(EXPRESSIONS)), own.counts[0]), (1, 0));
        own.counts[0] = 0xA5A5;
        assert_eq!(own, before);
    }
    let mut own = Own::filled(0xA5A5, 0);
    assert_eq!((own.read(&job(EXPRESSIONS)), own), (1, Own::filled(0xA5A5, 0)));
}

#[test]
fn short_buffer() {
    let (job, own) = (job(EXPRESSIONS), damaged(|_| ()));
    for length in 0..job.len() {
        let mut buffer = vec![0xA5; length];
        assert_eq!(own.write(&mut buffer), (15, 0));
        assert!(buffer.iter().all(|&byte| byte == 0xA5));
    }
    let mut buffer = vec![0xA5; job.len()];
    assert_eq!((own.write(&mut buffer), buffer), ((0, job.len() as u64), job));
}

#[test]
fn no_command() {
    damaged(|own| own.names[2] = 0x7F01).refused(2, 0);
    damaged(|own| own.names[3] = 0).refused(2, 2);
    damaged(|own| own.types[1] ^= 0x11 ^ 0x1F).refused(2, 8);
    damaged(|own| own.values[1] = 0).refused(2, 45);
    damaged(|own| own.heads[16] = 0x7F).refused(2, 148);
    damaged(|own| own.heads[17] = 0x7F).refused(2, 157);
    damaged(|own| own.heads[18] = 0x43).refused(2, 162);
}

#[test]
fn foreign_command() {
    damaged(|own| own.names[3] = 0xFF01).refused(3, 2);
    damaged(|own| own.types[2] ^= 0x12 ^ 0x39).refused(3, 14);
    damaged(|own| own.values[1] ^= 0x20 ^ 0x21).refused(3, 45);
    damaged(|own| own.heads[1] = 0x20).refused(3, 66);
    damaged(|own| own.heads[16] = 0xFF).refused(3, 148);
    damaged(|own| own.heads[17] = 0x11).refused(3, 157);
    damaged(|own| own.heads[18] = 0x15).refused(3, 162);
    // Also where a field is too wide for its operand.
    damaged(|own| own.types[2] = 0x31 | from_bit(8)).refused(3, 14);
    damaged(|own| own.heads[4] = 0x11 | from_bit(8)).refused(3, 74);
}

#[test]
fn no_expression() {
    damaged(|own| own.counts[3] = 0).refused(3, 61);
}

/// The job with a count of names, types, host values or expressions, and as many good entries as
/// there may be of them.
fn counted(which: usize, count: u64) -> Own {
    damaged(|own| {
        own.counts[which] = count;
        match which {
            0 => own.names.fill(0x0101),
            1 => own.types.fill(0x10),
            2 => own.values.fill(0x20 | 2 << 8),
            _ => own.heads.fill(0x31),
        }
    })
}

#[test]
fn counts_above_their_limits() {
    for more in [1, 2, u64::MAX - 512] {
        counted(0, 62 + more).refused(5, 2 * 62);
        counted(1, 256 + more).refused(5, 6 + 2 * 256);
        counted(2, 64 + more).refused(5, 38 + 7 * 64);
        counted(3, 512 + more).refused(5, 61 + 512);
    }
    // Whatever the entry past the limit holds, and after the faults before it.
    let mut own = counted(1, 257);
    own.types[256] = u64::MAX;
    own.refused(5, 6 + 2 * 256);
    own.types[255] = 0;
    own.refused(2, 6 + 2 * 255);
    own.names[4] = 0x0200;
    own.refused(6, 4);
}

#[test]
fn fields_too_wide() {
    damaged(|own| own.types[1] |= 1 << 48).refused(6, 8);
    damaged(|own| own.types[3] |= 1 << 63).refused(6, 18);
    damaged(|own| own.types[4] |= 1 << 24).refused(6, 32);
    damaged(|own| own.types[5] |= 1 << 31).refused(6, 35);
    damaged(|own| own.values[0] |= 1 << 56).refused(6, 38);
    damaged(|own| own.heads[0] |= 1 << 40).refused(6, 61);
    for (expression, place) in [(2, 67), (4, 74), (5, 78), (10, 102), (12, 117)] {
        damaged(|own| own.heads[expression] |= 1 << 16).refused(6, place);
        damaged(|own| own.heads[expression] |= 1 << 63).refused(6, place);
    }
    damaged(|own| own.heads[14] |= 1 << 24).refused(6, 134);
    damaged(|own| own.heads[14] |= 1 << 63).refused(6, 134);
}

#[test]
fn operands_that_break_a_condition() {
    damaged(|own| own.names[2] = 0x0100).refused(6, 0);
    damaged(|own| own.names[3] = 0x0103).refused(6, 2);
    damaged(|own| own.types[0] |= 5 << 8).refused(6, 6);
    damaged(|own| own.types[1] |= 1 << 32).refused(6, 8);
    damaged(|own| own.sets[3] = 1 << 2 | 1 << 3).refused(6, 18);
    damaged(|own| own.sets[3] = 1 << 5).refused(6, 18);
    damaged(|own| own.values[1] |= 1 << 24).refused(6, 45);
    damaged(|own| own.counts[4] = 1).refused(6, 52);
    damaged(|own| own.counts[4] = 1 << 4).refused(6, 52);
    damaged(|own| own.heads[2] |= 64 << 8).refused(6, 67);
    damaged(|own| own.slots[15] = 3).refused(6, 69);
    // A key of a limit that is not used, and a body that is not earlier.
    damaged(|own| own.slots[62] = 0).refused(6, 117);
    damaged(|own| own.slots[64] = 12).refused(6, 117);
    // The type stands behind the expressions.
    damaged(|own| own.slots[26] = 6).refused(6, 78);
    damaged(|own| own.slots[72] = 6).refused(6, 134);
    // Dividend and divisor.
    damaged(|own| own.slots[85] = 17).refused(6, 157);
    damaged(|own| own.slots[86] = 17).refused(6, 157);
    // The body of a thread.
    damaged(|own| own.slots[90] = 18).refused(6, 162);
}

#[test]
fn the_first_fault_decides() {
    let mut own = damaged(|own| own.counts[3] = 0);
    own.counts[4] = 1;
    own.refused(6, 52);
    own.values[1] = 0x30;
    own.refused(3, 45);
    own.types[5] = 0x7F;
    own.refused(2, 35);
    own.names[2] = 0x0100;
    own.refused(6, 0);
}

#[test]
fn what_is_not_looked_at() {
    let own = damaged(|own| {
        own.names[..2].fill(u16::MAX);
        own.names[5..].fill(u16::MAX);
        own.types[6..].fill(u64::MAX);
        own.values[2..].fill(u64::MAX);
        own.heads[EXPRESSIONS..].fill(u64::MAX);
        own.slots[5 * EXPRESSIONS..].fill(u16::MAX);
        own.counts.push(u64::MAX);
        // Fields of neither the command nor an operand.
        own.types[0] |= from_bit(16);
        for no_second in [2, 4, 5] {
            own.types[no_second] |= from_bit(32);
        }
        (0..own.sets.len()).filter(|&i| i != 3).for_each(|i| own.sets[i] = u64::MAX);
        for bare in [1, 3, 6, 7, 8, 9, 11, 13, 15, 16, 17, 18] {
            own.heads[bare] |= from_bit(8);
        }
        for (i, places) in PLACES.into_iter().enumerate() {
            own.slots[5 * i + places..5 * i + 5].fill(u16::MAX);
        }
    });
    own.written(&job(EXPRESSIONS));
}

#[test]
fn the_longest_tables() {
    // As many entries as there may be of each, and each of the longest command but the first ones.
    let mut job = [0x01, 1].repeat(62);
    job.extend([0x10, 0]);
    job.extend([0x13, 0, 0, 0, 0, 0, 0, 0, 0, 0, 0, 0, 0, 0].repeat(254));
    job.extend([0x12, 0, 0, 0]);
    job.extend([0x20, 255, 0, 1, 2, 3, 4].repeat(64));
    job.extend([0x21, 0, 0, 0, 0, 0, 0, 0, 0, 0x31]);
    job.extend([0x3C, 4, 0, 0, 0, 0, 0, 0, 0, 0, 0, 0].repeat(511));
    job.push(0xFF);
    // 12 less for the first type, 10 for the last, 11 for the first expression.
    assert_eq!(job.len(), BYTES - 33);
    Own::of(&job).written(&job);
}
