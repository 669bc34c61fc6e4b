//! The crate as a caller sees it, and its numbers against those of `jobdesk.h`.

use std::error::Error;

use jobdesk::{ANSWER_WORDS, BYTES, CALL_WORDS, LENGTHS, ROOM_WORDS, SHEET_BYTES, THREADS};
use jobdesk::{Answer, Answered, Call, Counts, Kind, Place, Refusal, Rooms, Tables, Value, lent};

/// The read of a host cell that holds 7 and whose key is name 2, with some rights.
fn example(rights: u8) -> Vec<u8> {
    let mut job = vec![0x01, 1, 0x10, 0, 0x12, 2, 0, 0, 0x20, 1, 0, 7, 0, 0, 0];
    job.extend([0x21, rights, 0, 0, 0, 0, 0, 0, 0, 0x32, 0, 0x39, 0, 0, 0xFF]);
    job
}

#[test]
fn accepted() {
    let mut tables = Tables::new();
    let accepted = tables.check(&example(4)).expect("an accepted job");
    assert_eq!((accepted.entry(), accepted.effect(), accepted.kind()), (0, 4, Kind::Number));
    assert_eq!(accepted.types(), [0x10, 0x12 + 0x200]);
    assert_eq!(accepted.sets(), [0, 0]);
    assert_eq!(accepted.expressions().collect::<Vec<_>>(), [(1, 0), (0, 4)]);
}

#[test]
fn refused() {
    let mut tables = Tables::new();
    let refusal = tables.check(&example(0)).unwrap_err();
    assert_eq!(refusal, Refusal { number: 14, place: 1 });
    assert_eq!(refusal.at(), Place::Expression(1));
    let error: Box<dyn Error> = refusal.into();
    let said = "refused 14 at expression 1: the job uses keys beyond its rights";
    assert_eq!(error.to_string(), said);
    let refusal = tables.check(&[]).unwrap_err();
    assert_eq!((refusal.number, refusal.at()), (4, Place::Byte(0)));
}

/// A number for each thread, of which the first two have one of their own.
fn two(first: u64, second: u64) -> [u64; THREADS] {
    [first, second, 0, 0, 0, 0, 0, 0]
}

/// An answer without a thread, or of thread 0, after so many steps of threads 0 and 1.
fn answered(answer: Answer, first: u64, second: u64) -> Answered {
    Answered { answer, thread: 0, steps: two(first, second) }
}

/// A turn of a thread.
fn taken(thread: usize) -> Answered {
    let mut steps = [0; THREADS];
    steps[thread] = 1;
    Answered { answer: Answer::Taken, thread, steps }
}

#[test]
fn runs() {
    let mut tables = Tables::new();
    let calls = [Call::Step, Call::run_each(0), Call::run_each(u64::MAX), Call::Step];
    let ran = tables.run(&example(4), &calls).expect("a job that starts");
    let (spent, done) = (answered(Answer::Spent, 0, 0), answered(Answer::Done, 2, 0));
    assert_eq!(ran.answers, [taken(0), spent, done, answered(Answer::Done, 0, 0)]);
    let rooms = Rooms { cells: 1, keys: 3, bindings: 2, threads: 1, ..Rooms::default() };
    assert_eq!(ran.rooms, rooms);
    // The check refuses this one, and it starts all the same.
    let denied = tables.run(&example(0), &[Call::run_each(9)]).expect("a job that starts");
    assert_eq!(denied.answers, [answered(Answer::Denied, 2, 0)]);
    // This one does not start.
    assert_eq!(tables.run(&[0x00], &calls), Err(Refusal { number: 2, place: 0 }));
}

#[test]
fn sessions() {
    let mut tables = Tables::new();
    let seven = Value { kind: Kind::Number, data: 7 };
    let calls = [Call::run_each(2), Call::Step];
    let session = tables.session(&example(4), &calls).expect("a session");
    assert_eq!(session.answers, [answered(Answer::Spent, 2, 0), taken(0)]);
    assert_eq!((session.value, &session.cells[..]), (Some(seven), &[seven][..]));
    assert_eq!((session.accepted.effect(), session.accepted.kind()), (4, Kind::Number));
    let session = tables.session(&example(4), &[]).expect("a session");
    assert_eq!((session.answers.len(), session.value), (0, None));
    assert_eq!(tables.session(&example(0), &[]), Err(Refusal { number: 14, place: 1 }));
}

/// The job that asks for key 2: the number in its cell where it is enabled, else 5.
fn asking(rights: u8) -> Vec<u8> {
    let mut job = vec![0x01, 1, 0x10, 0, 0x12, 2, 0, 0, 0x14, 0, 2];
    job.extend([0x20, 1, 0, 7, 0, 0, 0, 0x20, 2, 0, 0, 0, 0, 0, 0x21, rights, 0, 0, 0, 0, 0, 0, 0]);
    job.extend([
        0x32, 1, 0x32, 0, 0x39, 1, 0, 0x30, 5, 0, 0, 0, 0x40, 0, 0, 2, 0, 3, 0, 0, 0, 0xFF,
    ]);
    job
}

#[test]
fn a_job_that_asks() {
    let mut tables = Tables::new();
    for (rights, steps, number) in [(4, 6, 7), (0, 4, 5)] {
        let session = tables.session(&asking(rights), &[Call::run_each(100)]).expect("a session");
        assert_eq!(session.accepted.effect(), 0);
        assert_eq!(session.answers, [answered(Answer::Done, steps, 0)]);
        assert_eq!(session.value, Some(Value { kind: Kind::Number, data: number }));
    }
}

/// A job without rights: expressions 0 and 1 are two numbers, then come some bytes and the end.
fn of_two(first: u32, second: u32, then: &[u8]) -> Vec<u8> {
    let mut job = vec![0x21, 0, 0, 0, 0, 0, 0, 0, 0];
    for number in [first, second] {
        job.push(0x30);
        job.extend(number.to_le_bytes());
    }
    job.extend(then);
    job.push(0xFF);
    job
}

/// A sum (0) or difference (1) of two numbers.
fn sum(operation: u8, first: u32, second: u32) -> Vec<u8> {
    of_two(first, second, &[0x3A, operation, 0, 0, 1, 0])
}

#[test]
fn sums_and_differences_stop() {
    let mut tables = Tables::new();
    for (operation, first, second, number) in [
        (0, 1290, 25, 1315),
        (0, u32::MAX - 1, 1, u32::MAX),
        (0, u32::MAX, 1, u32::MAX),
        (0, 1, u32::MAX, u32::MAX),
        (1, 5, 3, 2),
        (1, 5, 5, 0),
        (1, 3, 5, 0),
        (1, 0, u32::MAX, 0),
    ] {
        let session = tables.session(&sum(operation, first, second), &[Call::run_each(100)]);
        let session = session.expect("a session");
        assert_eq!(session.answers, [answered(Answer::Done, 5, 0)]);
        assert_eq!(session.value, Some(Value { kind: Kind::Number, data: number }));
    }
}

/// Part 1 or 2 of a number divided by another.
fn part(part: u8, dividend: u32, divisor: u32) -> Vec<u8> {
    of_two(dividend, divisor, &[0x41, 0, 0, 1, 0, 0x34, 2, 0, part])
}

#[test]
fn divisions() {
    let mut tables = Tables::new();
    for (dividend, divisor, share, rest) in [
        (1979, 7, 282, 5),
        (1974, 7, 282, 0),
        (6, 7, 0, 6),
        (1979, 0, 0, 1979),
        (0, 0, 0, 0),
        (u32::MAX, 1, u32::MAX, 0),
        (u32::MAX, 2, u32::MAX / 2, 1),
        (u32::MAX - 1, u32::MAX, 0, u32::MAX - 1),
    ] {
        for (place, number) in [(1, share), (2, rest)] {
            let session = tables.session(&part(place, dividend, divisor), &[Call::run_each(100)]);
            let session = session.expect("a session");
            assert_eq!(session.answers, [answered(Answer::Done, 7, 0)]);
            assert_eq!(session.value, Some(Value { kind: Kind::Number, data: number }));
        }
    }
    let ran = tables.run(&part(1, 1979, 7), &[Call::run_each(100)]).expect("a job that starts");
    assert_eq!(ran.rooms, Rooms { keys: 2, pairs: 1, threads: 1, ..Rooms::default() });
}

/// A division makes two entries of the type table: a number, and the pair of it and itself.
#[test]
fn types_of_a_division() {
    let mut tables = Tables::new();
    let job = of_two(1979, 7, &[0x41, 0, 0, 1, 0]);
    let accepted = tables.check(&job).expect("an accepted job");
    assert_eq!((accepted.entry(), accepted.effect(), accepted.kind()), (3, 0, Kind::Pair));
    assert_eq!(accepted.types(), [0x10, 0x10, 0x10, 0x11 | 2 << 16 | 2 << 32]);
    assert_eq!(accepted.expressions().collect::<Vec<_>>(), [(0, 0), (1, 0), (3, 0)]);
    // The pair is no number.
    let twice = of_two(1979, 7, &[0x41, 0, 0, 1, 0, 0x30, 2, 0, 0, 0, 0x41, 2, 0, 3, 0]);
    assert_eq!(tables.check(&twice), Err(Refusal { number: 11, place: 4 }));
}

/// A thread for the sum of two numbers, while thread 0 adds its number, which is 0, to 7. Each takes five
/// steps; the second of thread 0 starts thread 1.
fn spawning() -> Vec<u8> {
    let sum = [0x3A, 0, 0, 0, 1, 0, 0x42, 2, 0];
    of_two(5, 6, &[&sum[..], &[0x30, 7, 0, 0, 0, 0x3A, 0, 3, 0, 4, 0]].concat())
}

#[test]
fn threads_take_turns() {
    let mut tables = Tables::new();
    let third = Call::Run(two(1, 1));
    let calls = [Call::Run(two(3, 0)), Call::Step, third, Call::run_each(100), Call::Step];
    let answers = [
        answered(Answer::Spent, 3, 0),
        taken(1),
        answered(Answer::Spent, 1, 1),
        answered(Answer::Done, 1, 3),
        answered(Answer::Done, 0, 0),
    ];
    // After so many calls: frames and threads.
    let after = [(0, 1), (1, 2), (2, 2), (2, 2), (0, 2), (0, 2)];
    for (made, (frames, threads)) in after.into_iter().enumerate() {
        let ran = tables.run(&spawning(), &calls[..made]).expect("a job that starts");
        assert_eq!(ran.answers, answers[..made]);
        assert_eq!(ran.rooms, Rooms { keys: 2, frames, threads, ..Rooms::default() });
    }
    let session = tables.session(&spawning(), &calls).expect("a session");
    assert_eq!(session.answers, answers);
    assert_eq!(session.value, Some(Value { kind: Kind::Number, data: 7 }));
}

/// A run with each allowance, how it ends, and the threads of the two turns after it.
#[test]
fn each_thread_has_its_allowance() {
    let mut tables = Tables::new();
    for (allowances, spent, next) in [
        // Nothing is allowed, or only to numbers that no thread has.
        ([0; THREADS], (0, 0), [0, 0]),
        ([0, 9, 9, 9, 9, 9, 9, u64::MAX], (0, 0), [0, 0]),
        // The last step that is allowed starts thread 1, which has nothing allowed, something, or enough.
        (two(2, 0), (2, 0), [0, 1]),
        (two(2, 3), (2, 3), [0, 1]),
        (two(2, u64::MAX), (2, 5), [0, 0]),
        // Thread 1 is passed over, and keeps its turn in the round.
        (two(4, 1), (4, 1), [1, 0]),
        (two(3, 0), (3, 0), [1, 0]),
        // Thread 0 is at its end.
        (two(u64::MAX, 2), (5, 2), [1, 1]),
        (two(5, 0), (5, 0), [1, 1]),
    ] {
        let calls = [Call::Run(allowances), Call::Step, Call::Step];
        let session = tables.session(&spawning(), &calls).expect("a session");
        let spent = answered(Answer::Spent, spent.0, spent.1);
        assert_eq!(session.answers, [spent, taken(next[0]), taken(next[1])], "{allowances:?}");
        assert_eq!(session.value, None);
    }
    // To the last step of each, with some left, and with as much as there can be.
    for allowances in [two(5, 5), two(6, 5), two(5, 9), [u64::MAX; THREADS]] {
        let calls = [Call::Run(allowances), Call::run_each(0)];
        let session = tables.session(&spawning(), &calls).expect("a session");
        assert_eq!(session.answers, [(5, 5), (0, 0)].map(|(a, b)| answered(Answer::Done, a, b)));
        assert!(session.value.is_some());
    }
}

/// Nothing of an allowance carries over, and a turn has none.
#[test]
fn allowances_are_of_one_run() {
    let mut tables = Tables::new();
    let run = |first, second| Call::Run(two(first, second));
    let calls = [run(3, 0), run(0, 2), Call::Step, run(0, 0), run(0, 1), run(1, 9)];
    let ran = tables.run(&spawning(), &calls).expect("a job that starts");
    let spent = |first, second| answered(Answer::Spent, first, second);
    let done = answered(Answer::Done, 1, 2);
    let answers = [spent(3, 0), spent(0, 2), taken(0), spent(0, 0), spent(0, 1), done];
    assert_eq!(ran.answers, answers);
}

/// The number of a 42 has an entry of its own.
#[test]
fn type_of_a_thread() {
    let mut tables = Tables::new();
    let job = of_two(5, 6, &[0x33, 0, 0, 1, 0, 0x42, 2, 0]);
    let accepted = tables.check(&job).expect("an accepted job");
    assert_eq!((accepted.entry(), accepted.effect(), accepted.kind()), (3, 0, Kind::Number));
    assert_eq!(accepted.types(), [0x10, 0x10, 0x11 | 1 << 32, 0x10]);
}

/// A thread has no keys, so its body must need none. Run all the same, it is denied, and asked again.
#[test]
fn a_thread_without_its_key() {
    let mut tables = Tables::new();
    let mut job = example(4);
    job.pop();
    job.extend([0x42, 1, 0, 0xFF]);
    let refusal = tables.check(&job).unwrap_err();
    assert_eq!((refusal, refusal.at()), (Refusal { number: 16, place: 2 }, Place::Expression(2)));
    let said = "refused 16 at expression 2: a thread's body has an effect";
    assert_eq!(refusal.to_string(), said);
    assert_eq!(tables.session(&job, &[]), Err(refusal));
    let calls = [Call::run_each(100), Call::Step, Call::Run(two(9, 0)), Call::run_each(1)];
    let ran = tables.run(&job, &calls).expect("a job that starts");
    let denied = |first, second| Answered { thread: 1, ..answered(Answer::Denied, first, second) };
    let spent = answered(Answer::Spent, 0, 0);
    assert_eq!(ran.answers, [denied(1, 2), denied(0, 0), spent, denied(0, 0)]);
}

/// So many threads, one in another.
fn nested(threads: u16) -> Vec<u8> {
    let mut job = vec![0x21, 0, 0, 0, 0, 0, 0, 0, 0, 0x31];
    for body in 0..threads {
        job.push(0x42);
        job.extend(body.to_le_bytes());
    }
    job.push(0xFF);
    job
}

#[test]
fn a_ninth_thread() {
    let mut tables = Tables::new();
    let none = [1, 1, 1, 1, 1, 1, 1, 0];
    for (spawns, answer, thread, steps) in
        [(7, Answer::Done, 0, [1; THREADS]), (8, Answer::NoRoom, 7, none)]
    {
        let session = tables.session(&nested(spawns), &[Call::run_each(100)]).expect("a session");
        assert_eq!(session.answers, [Answered { answer, thread, steps }]);
        let ran = tables.run(&nested(spawns), &[Call::run_each(100)]).expect("a job that starts");
        assert_eq!((ran.rooms.threads, ran.answers[0].thread), (8, thread));
    }
}

/// A run of a job of two threads, with tables that are long enough and these slices.
fn run_lent(calls: &[u64], answers: &mut [u64], rooms: &mut [u64]) -> u64 {
    let [names, types, sets, values, heads, slots, ..] = LENGTHS;
    let lent = lent::Lent {
        names: &mut vec![0; names],
        types: &mut vec![0; types],
        sets: &mut vec![0; sets],
        values: &mut vec![0; values],
        heads: &mut vec![0; heads],
        slots: &mut vec![0; slots],
    };
    lent::run(&spawning(), lent, calls, answers, rooms)
}

/// `rooms` gets no more words than it has.
#[test]
fn short_rooms() {
    for length in 0..=ROOM_WORDS + 1 {
        let (mut rooms, mut answers) = ([99; ROOM_WORDS + 2], [0; ANSWER_WORDS]);
        let calls = Call::Run(two(4, 1)).words();
        assert_eq!(run_lent(&calls, &mut answers, &mut rooms[..length]), 0);
        assert_eq!(answers, [Answer::Spent.number(), 0, 4, 1, 0, 0, 0, 0, 0, 0]);
        let told = [0, 2, 0, 0, 2, 0, 2];
        let written = length.min(told.len());
        assert_eq!(rooms[..written], told[..written]);
        assert!(rooms[written..].iter().all(|&word| word == 99));
    }
}

/// 0 is a turn, whatever the eight words after it; any other number is a run.
#[test]
fn words_of_calls() {
    let [mut turn, mut run] = [Call::Step, Call::Run(two(3, 0))].map(Call::words);
    assert_eq!((turn, run), ([0; CALL_WORDS], [1, 3, 0, 0, 0, 0, 0, 0, 0]));
    turn[1..].copy_from_slice(&[u64::MAX, 0, 1, 1 << 63, 5, 6, 7, 8]);
    for number in [1, 2, 1 << 32, u64::MAX] {
        run[0] = number;
        let mut answers = [99; 2 * ANSWER_WORDS + 1];
        assert_eq!(run_lent(&[turn, run].concat(), &mut answers, &mut []), 0);
        let told = [0, 0, 1, 0, 0, 0, 0, 0, 0, 0, 2, 0, 3, 0, 0, 0, 0, 0, 0, 0];
        assert_eq!((&answers[..20], answers[20]), (&told[..], 99));
    }
}

/// Calls that are cut short, and too few words for the answers: 1, and nothing is written.
#[test]
fn short_calls_and_answers() {
    let calls = Call::all_words(&[Call::Step, Call::run_each(9)]);
    for (words, room) in [(1, 20), (8, 20), (10, 20), (17, 20), (9, 9), (18, 19), (18, 0), (17, 0)]
    {
        let (mut answers, mut rooms) = ([99; 20], [99; ROOM_WORDS]);
        let number = run_lent(&calls[..words], &mut answers[..room], &mut rooms);
        assert_eq!((number, answers), (1, [99; 20]), "{words} words, {room} for the answers");
        assert_eq!((rooms[0], &rooms[1..]), (0, &[99; ROOM_WORDS - 1][..]));
    }
    let short = Refusal { number: 1, place: 0 };
    assert_eq!(Tables::new().run_words(&example(4), &calls[..8], &mut [0; 10]), Err(short));
    let said = "refused 1 at no place: a lent table or slice is too short, or a call is cut short";
    assert_eq!(short.to_string(), said);
}

/// What the tables hold, written.
fn written(tables: &Tables, counts: &Counts) -> Vec<u8> {
    let mut buffer = vec![0xA5; BYTES];
    let length = tables.write(counts, &mut buffer).expect("a job that is written");
    assert!(buffer[length..].iter().all(|&byte| byte == 0xA5));
    buffer.truncate(length);
    buffer
}

#[test]
fn passed_on() {
    let mut tables = Tables::new();
    let job = asking(4);
    let counts = tables.read(&job).expect("a job that is read");
    let wanted = Counts { names: 1, types: 3, values: 2, expressions: 5, rights: 4 };
    assert_eq!(counts, wanted);
    assert_eq!(written(&tables, &counts), job);
    // A check makes more types, and leaves the job in the tables; so do a session and a run.
    assert!(tables.check(&job).expect("an accepted job").types().len() > counts.types);
    assert_eq!(written(&tables, &counts), job);
    tables.session(&job, &[Call::run_each(100)]).expect("a session");
    assert_eq!(written(&tables, &counts), job);
    tables.run(&job, &[Call::run_each(100)]).expect("a job that starts");
    assert_eq!(written(&tables, &counts), job);
}

#[test]
fn passed_on_though_refused() {
    let mut tables = Tables::new();
    let counts = tables.read(&example(0)).expect("a job that is read");
    assert_eq!(written(&tables, &counts), example(0));
    // The check refuses it, and clears the tables: name 2 has no command.
    tables.check(&example(0)).unwrap_err();
    let refusal = tables.write(&counts, &mut [0; BYTES]).unwrap_err();
    assert_eq!((refusal, refusal.at()), (Refusal { number: 2, place: 0 }, Place::Byte(0)));
    assert_eq!(tables.read(&[0x01]), Err(Refusal { number: 4, place: 0 }));
}

#[test]
fn short_buffer() {
    let mut tables = Tables::new();
    let job = example(4);
    let counts = tables.read(&job).expect("a job that is read");
    let mut buffer = vec![0xA5; job.len() - 1];
    let refusal = tables.write(&counts, &mut buffer).unwrap_err();
    assert_eq!((refusal, refusal.at()), (Refusal { number: 15, place: 0 }, Place::Lent));
    assert_eq!(refusal.to_string(), "refused 15 at no place: the buffer is too short");
    assert!(buffer.iter().all(|&byte| byte == 0xA5));
    buffer.push(0);
    assert_eq!((tables.write(&counts, &mut buffer), &buffer), (Ok(job.len()), &job));
}

#[test]
fn every_refusal_has_words() {
    let reason = |number| Refusal { number, place: 0 }.reason();
    let mut reasons: Vec<_> = (1..=16).map(reason).collect();
    assert!(!reasons.contains(&reason(17)));
    reasons.sort();
    reasons.dedup();
    assert_eq!(reasons.len(), 16);
}

/// The number of a constant of `jobdesk.h`.
fn defined(name: &str) -> usize {
    let line = format!("#define JOBDESK_{name} ");
    let header = include_str!("../jobdesk.h");
    let found = header.lines().find_map(|text| text.strip_prefix(&line)).expect(name);
    let number = found.split_whitespace().next().expect(name);
    number.parse().expect(name)
}

#[test]
fn numbers_of_the_header() {
    let tables = ["NAMES", "TYPES", "SETS", "VALUES", "HEADS", "SLOTS", "ENTRIES", "EFFECTS"];
    assert_eq!(tables.map(defined), LENGTHS);
    let answers = ["TAKEN", "DONE", "SPENT", "NO_ROOM", "STUCK", "DENIED"];
    assert_eq!(answers.map(defined), Answer::ALL.map(|answer| answer.number() as usize));
    assert_eq!(["OUT", "VALUE", "CELLS"].map(defined), [2, 2, 512]);
    let words = ["CALL", "ANSWER", "ROOMS"].map(defined);
    assert_eq!((words, defined("THREADS")), ([CALL_WORDS, ANSWER_WORDS, ROOM_WORDS], THREADS));
    assert_eq!(
        ["COUNTS", "BYTES", "SHORT_BUFFER", "SPAWN_EFFECT"].map(defined),
        [5, BYTES, 15, 16]
    );
    assert_eq!(defined("SHEET_BYTES"), SHEET_BYTES);
    let kinds = ["NUMBER", "PAIR", "CELL", "FUNCTION", "LIMIT", "GRANT"];
    assert_eq!(kinds.map(defined), Kind::ALL.map(|kind| kind as usize + 1));
}
