//! The library's functions over slices that the caller owns. The only module with unsafe code.
//!
//! [`Tables`](crate::Tables) has tables of the right lengths and gives answers by name. What is here
//! is for callers who lend tables of their own: numbers and words go in and come out as
//! `jobdesk.h` has them.
#![allow(unsafe_code)]

/// The tables that hold a job, as they are lent.
#[derive(Debug)]
pub struct Lent<'a> {
    /// 64 entries or more.
    pub names: &'a mut [u16],
    /// 2,304 entries or more.
    pub types: &'a mut [u64],
    /// 2,304 entries or more.
    pub sets: &'a mut [u64],
    /// 64 entries or more.
    pub values: &'a mut [u64],
    /// 512 entries or more.
    pub heads: &'a mut [u64],
    /// 2,560 entries or more.
    pub slots: &'a mut [u16],
}

/// The same tables, lent to be read alone. Their least lengths are the same.
#[derive(Clone, Copy, Debug)]
pub struct Held<'a> {
    /// 64 entries or more.
    pub names: &'a [u16],
    /// 2,304 entries or more.
    pub types: &'a [u64],
    /// 2,304 entries or more.
    pub sets: &'a [u64],
    /// 64 entries or more.
    pub values: &'a [u64],
    /// 512 entries or more.
    pub heads: &'a [u64],
    /// 2,560 entries or more.
    pub slots: &'a [u16],
}

/// Declares functions of the library. Each takes a job, the six tables that hold it, and slices of
/// its own; a slice is a pointer and a length.
macro_rules! library {
    ($(fn $function:ident($($own:ident: $pointer:ty),*);)*) => {
        unsafe extern "C" {
            $(fn $function(
                job: *const u8, job_length: usize,
                names: *mut u16, names_length: usize,
                types: *mut u64, types_length: usize,
                sets: *mut u64, sets_length: usize,
                values: *mut u64, values_length: usize,
                heads: *mut u64, heads_length: usize,
                slots: *mut u16, slots_length: usize,
                $($own: $pointer, _: usize),*
            ) -> u64;)*
        }
    };
}

library! {
    fn jobdesk_check(entries: *mut u16, effects: *mut u64, out: *mut u64);
    fn jobdesk_run(calls: *const u64, answers: *mut u64, rooms: *mut u64);
    fn jobdesk_session(
        entries: *mut u16, effects: *mut u64, calls: *const u64, answers: *mut u64,
        value: *mut u64, cells: *mut u64, out: *mut u64
    );
    fn jobdesk_read(counts: *mut u64);
}

#[rustfmt::skip]
unsafe extern "C" {
    fn jobdesk_write(
        names: *const u16, names_length: usize,
        types: *const u64, types_length: usize,
        sets: *const u64, sets_length: usize,
        values: *const u64, values_length: usize,
        heads: *const u64, heads_length: usize,
        slots: *const u16, slots_length: usize,
        counts: *const u64, counts_length: usize,
        buffer: *mut u8, buffer_length: usize,
        out: *mut u64, out_length: usize,
    ) -> u64;
    fn jobdesk_sheet(
        job: *const u8, job_length: usize,
        text: *mut u8, text_length: usize,
        out: *mut u64, out_length: usize,
    ) -> u64;
}

/// Calls one of them with a job, the tables that hold it, and its own slices, each the pair of a
/// pointer and a length.
macro_rules! call {
    ($function:ident, $job:ident, $lent:ident, $($own:expr),*) => {{
        let Lent { names, types, sets, values, heads, slots } = $lent;
        // SAFETY: every pointer goes with the length of the slice that it was taken from. Those
        // that are written to come from `&mut`, so no two of them overlap, and none overlaps one
        // that is read.
        unsafe {
            $function(
                $job.as_ptr(), $job.len(),
                names.as_mut_ptr(), names.len(),
                types.as_mut_ptr(), types.len(),
                sets.as_mut_ptr(), sets.len(),
                values.as_mut_ptr(), values.len(),
                heads.as_mut_ptr(), heads.len(),
                slots.as_mut_ptr(), slots.len(),
                $($own.0, $own.1),*
            )
        }
    }};
}

fn part<T>(slice: &mut [T]) -> (*mut T, usize) {
    (slice.as_mut_ptr(), slice.len())
}

/// Checks a job. 0: it is accepted, and `out` has the entry of its type and its effect. 1 to 14 or 16:
/// it is refused, and `out` has the place and 0.
pub fn check(
    job: &[u8],
    lent: Lent,
    entries: &mut [u16],
    effects: &mut [u64],
    out: &mut [u64; 2],
) -> u64 {
    call!(jobdesk_check, job, lent, part(entries), part(effects), part(out))
}

/// Starts a job and makes the calls, nine words each. 0: it is started, `answers` has ten words for each
/// call, and `rooms` what is in use at the end, in seven. 1 to 10: it is not started, and `rooms[0]` has
/// the place; 1 too where the words of `calls` are no whole number of calls, or `answers` has too few.
/// Where `rooms` has fewer than seven words, it gets those that it has.
pub fn run(job: &[u8], lent: Lent, calls: &[u64], answers: &mut [u64], rooms: &mut [u64]) -> u64 {
    let made = (calls.as_ptr(), calls.len());
    call!(jobdesk_run, job, lent, made, part(answers), part(rooms))
}

/// The slices for what a session gives.
#[derive(Debug)]
pub struct Results<'a> {
    /// Ten words for each call.
    pub answers: &'a mut [u64],
    /// Two words or more.
    pub value: &'a mut [u64],
    /// 512 words or more.
    pub cells: &'a mut [u64],
    /// Two words or more.
    pub out: &'a mut [u64],
}

/// Checks a job and, where it is accepted, starts it and makes the calls, nine words each. 0: it is
/// accepted. 1 to 14 or 16: it is refused; where 1 is for calls that are cut short or for a slice of the
/// results, nothing is written.
pub fn session(
    job: &[u8],
    lent: Lent,
    entries: &mut [u16],
    effects: &mut [u64],
    calls: &[u64],
    results: Results,
) -> u64 {
    let Results { answers, value, cells, out } = results;
    let (entries, effects) = (part(entries), part(effects));
    let made = (calls.as_ptr(), calls.len());
    let (answers, value, cells, out) = (part(answers), part(value), part(cells), part(out));
    call!(jobdesk_session, job, lent, entries, effects, made, answers, value, cells, out)
}

/// Reads a job into the tables. 0: it is read, and `counts` has its names, types, host values,
/// expressions and rights. 1 to 7: it is not read, and `counts[0]` has the place. 1 too where `counts`
/// has fewer than five words.
pub fn read(job: &[u8], lent: Lent, counts: &mut [u64]) -> u64 {
    call!(jobdesk_read, job, lent, part(counts))
}

/// Writes the bytes of the job that the tables hold into the buffer. 0: it is written, and `out` has
/// how many bytes there are. 1, 2, 3, 5, 6 or 15: no byte is written, and `out` has the place. 1 too
/// where `counts` has fewer than five words.
pub fn write(held: Held, counts: &[u64], buffer: &mut [u8], out: &mut [u64; 1]) -> u64 {
    let Held { names, types, sets, values, heads, slots } = held;
    // SAFETY: every pointer goes with the length of the slice that it was taken from. The two that
    // are written to come from `&mut`, so they overlap nothing else.
    #[rustfmt::skip]
    let number = unsafe {
        jobdesk_write(
            names.as_ptr(), names.len(),
            types.as_ptr(), types.len(),
            sets.as_ptr(), sets.len(),
            values.as_ptr(), values.len(),
            heads.as_ptr(), heads.len(),
            slots.as_ptr(), slots.len(),
            counts.as_ptr(), counts.len(),
            buffer.as_mut_ptr(), buffer.len(),
            out.as_mut_ptr(), out.len(),
        )
    };
    number
}

/// The sheet of a job, written to the start of `text`. 0: it is accepted, and `out` has how many bytes
/// the sheet has, and 0. 2 to 14 or 16: it is refused, `text` has the desk program's line, and `out` how
/// many bytes that has, and the place. 1: `text` has fewer than 868 bytes, no byte is written, and `out`
/// has two zeros. Where `out` has fewer than two words, it gets those that it has.
pub fn sheet(job: &[u8], text: &mut [u8], out: &mut [u64]) -> u64 {
    // SAFETY: every pointer goes with the length of the slice that it was taken from. The two that
    // are written to come from `&mut`, so they overlap nothing else.
    #[rustfmt::skip]
    let number = unsafe {
        jobdesk_sheet(
            job.as_ptr(), job.len(),
            text.as_mut_ptr(), text.len(),
            out.as_mut_ptr(), out.len(),
        )
    };
    number
}
