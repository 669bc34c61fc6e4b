//! One thread: the steps that it takes on what all threads share.

use crate::code::Code;
use crate::job::Kind;

pub use crate::value::*;

/// Why a step is not taken, or not by the thread alone.
#[derive(Clone, Copy, Debug, PartialEq, Eq)]
pub enum Stop {
    /// The thread has ended with a value.
    Done,
    /// The step needs a place that is not there.
    NoRoom,
    /// An operand is of a kind that the command cannot use.
    Stuck,
    /// An operand's key is not enabled.
    Denied,
    /// A thread is to be started.
    Start,
}

/// An expression to enter or a value to hand on.
#[derive(Clone, Copy, Debug, PartialEq, Eq)]
enum Control {
    Enter(u16),
    Hand(Value),
}

/// A command that waits for an operand: what it has in hand, and the keys and bindings around it.
#[derive(Clone, Copy, Debug, Default, PartialEq, Eq)]
struct Frame {
    enabled: u128,
    hand: [Value; 3],
    held: u8,
    expr: u16,
    scope: u16,
}

/// A function that was made: its body and the bindings around it.
#[derive(Clone, Copy, Debug, Default, PartialEq, Eq)]
struct Closure {
    body: u16,
    scope: u16,
}

/// A variable's value and the binding outside it.
#[derive(Clone, Copy, Debug, Default, PartialEq, Eq)]
struct Binding {
    value: Value,
    outer: u16,
}

/// What one thread has of its own.
#[derive(Clone, Debug, PartialEq, Eq)]
pub struct Thread {
    control: Control,
    /// The newest binding in scope.
    scope: u16,
    /// What is below one of these keys is enabled.
    enabled: u128,
    /// How many frames are in use.
    used: usize,
    frames: [Frame; FRAMES],
}

/// What all threads share.
#[derive(Clone, Debug, PartialEq, Eq)]
pub struct Store {
    /// The room in use, without threads and their frames.
    pub rooms: Rooms,
    /// The job's code.
    pub code: Vec<Code>,
    cells: [Value; CELLS],
    /// For each key, itself and the keys above it.
    above: [u128; KEYS],
    /// For each key, itself and the keys below it.
    below: [u128; KEYS],
    pairs: [[Value; 2]; PAIRS],
    functions: [Closure; FUNCTIONS],
    bindings: [Binding; BINDINGS],
}

/// Threads, and what can be seen of one.
impl Thread {
    /// A thread that enters an expression, with bindings in scope and keys enabled.
    #[inline(always)]
    pub fn new(entered: u16, scope: u16, enabled: u128) -> Self {
        let frames = [Frame::default(); FRAMES];
        Thread { control: Control::Enter(entered), scope, enabled, used: 0, frames }
    }

    /// The thread that is started by the 42 which is entered next, with the bindings in force and no
    /// enabled keys. 42 itself hands on 0.
    pub fn spawn(&mut self, store: &Store) -> Option<Self> {
        let Code::Spawn(body) = store.code[self.entering()? as usize] else { return None };
        self.control = Control::Hand(Value::unkeyed(Kind::Number, 0));
        Some(Thread::new(body, self.scope, 0))
    }

    /// Its value, where there is no frame left.
    #[inline(always)]
    pub fn result(&self) -> Option<Value> {
        match self.control {
            Control::Hand(value) if self.used == 0 => Some(value),
            _ => None,
        }
    }

    /// How many frames it has.
    pub fn frames(&self) -> usize {
        self.used
    }

    /// The expression that is entered next.
    pub fn entering(&self) -> Option<u16> {
        match self.control {
            Control::Enter(expr) => Some(expr),
            Control::Hand(_) => None,
        }
    }

    /// The value that is handed on next.
    pub fn handing(&self) -> Option<Value> {
        match self.control {
            Control::Hand(value) => Some(value),
            Control::Enter(_) => None,
        }
    }

    /// The newest frame.
    fn newest(&self) -> Option<&Frame> {
        self.used.checked_sub(1).map(|top| &self.frames[top])
    }

    /// The expression of the newest frame.
    pub fn waiting(&self) -> Option<u16> {
        self.newest().map(|frame| frame.expr)
    }

    /// The expression that acts next on two operands, and both.
    pub fn acting(&self, store: &Store) -> Option<(u16, Value, Value)> {
        let Control::Hand(second) = self.control else { return None };
        let frame = self.newest()?;
        let acts = next_operand(store.code[frame.expr as usize], frame.held).is_none();
        (acts && frame.held == 1).then_some((frame.expr, frame.hand[0], second))
    }

    /// Whether the newest frame has a value's key enabled.
    pub fn opens(&self, store: &Store, value: Value) -> bool {
        self.newest().is_some_and(|frame| store.key(frame, value).is_ok())
    }
}

/// Steps.
impl Thread {
    /// Takes up to `steps` steps; says how many, and what stops it. It stops as soon as it has ended.
    #[inline(always)]
    pub fn run(&mut self, store: &mut Store, steps: u64) -> (u64, Option<Stop>) {
        // The control is kept at hand and put back at the end.
        let mut control = self.control;
        let mut left = steps;
        while left > 0 {
            match self.advance(store, control) {
                Ok(next) => control = next,
                Err(stop) => {
                    self.control = control;
                    return (steps - left, Some(stop));
                }
            }
            left -= 1;
        }
        self.control = control;
        (steps, self.result().map(|_| Stop::Done))
    }

    /// The control after a step. Where there is none, nothing has been changed.
    #[inline(always)]
    fn advance(&mut self, store: &mut Store, control: Control) -> Result<Control, Stop> {
        match control {
            Control::Enter(expr) => self.enter(store, expr),
            Control::Hand(value) => self.hand(store, value),
        }
    }

    #[inline(always)]
    fn enter(&mut self, store: &mut Store, expr: u16) -> Result<Control, Stop> {
        let value = match store.code[expr as usize] {
            Code::Number(number) => Value::unkeyed(Kind::Number, number),
            Code::Top => Value::unkeyed(Kind::Limit, 1),
            Code::Host(binding) => store.bindings[binding as usize % BINDINGS].value,
            Code::Local(distance) => store.local(self.scope, distance),
            Code::Function(body) => store.new_function(body, self.scope)?,
            Code::Shut(body) => {
                self.enabled = 0;
                return Ok(Control::Enter(body));
            }
            Code::Spawn(_) => return Err(Stop::Start),
            Code::Part(first, _)
            | Code::NewCell(first)
            | Code::Read(first)
            | Code::Pair(first, _)
            | Code::Apply(first, _)
            | Code::Assign(first, _)
            | Code::Sum(first, _)
            | Code::Difference(first, _)
            | Code::Test(first, _, _)
            | Code::Limit(_, [first, ..], _)
            | Code::Grant(first, _)
            | Code::NewKey(first, _)
            | Code::Associate(first, _)
            | Code::Divide(first, _)
            | Code::Look(first, _, _) => return self.push(expr, first),
        };
        Ok(Control::Hand(value))
    }

    /// Pushes a frame for an expression, and enters its first operand.
    #[inline(always)]
    fn push(&mut self, expr: u16, first: u16) -> Result<Control, Stop> {
        let top = self.used;
        if top >= FRAMES {
            return Err(Stop::NoRoom);
        }
        let frame = &mut self.frames[top];
        frame.expr = expr;
        frame.held = 0;
        frame.scope = self.scope;
        frame.enabled = self.enabled;
        self.used = top + 1;
        Ok(Control::Enter(first))
    }

    /// A value goes to the newest frame, which enters its next operand or acts.
    #[inline(always)]
    fn hand(&mut self, store: &mut Store, value: Value) -> Result<Control, Stop> {
        let Some(top) = self.used.checked_sub(1) else {
            return Err(Stop::Done);
        };
        let frame = &mut self.frames[top % FRAMES];
        let code = store.code[frame.expr as usize];
        if let Some(next) = next_operand(code, frame.held) {
            frame.hand[frame.held as usize] = value;
            frame.held += 1;
            self.scope = frame.scope;
            self.enabled = frame.enabled;
            return Ok(Control::Enter(next));
        }
        let frame = *frame;
        let acted = self.act(store, &frame, code, value);
        if acted.is_ok() {
            self.used = top;
        }
        acted
    }
}

/// What a frame does with all its operands in hand: kinds are tested, then keys, then room, and
/// nothing is changed before.
impl Thread {
    #[inline(always)]
    fn act(
        &mut self,
        store: &mut Store,
        frame: &Frame,
        code: Code,
        value: Value,
    ) -> Result<Control, Stop> {
        let first = frame.hand[0];
        let result = match code {
            Code::Pair(..) => store.new_pair(first, value)?,
            Code::Part(_, part) => store.part(frame, part, value)?,
            Code::Apply(..) => return self.apply(store, frame, first, value),
            Code::NewCell(_) => store.hold(value)?,
            Code::Assign(..) => store.assign(frame, first, value)?,
            Code::Read(_) => store.read(frame, value)?,
            Code::Sum(..) => store.arithmetic(frame, u32::saturating_add, first, value)?,
            Code::Difference(..) => store.arithmetic(frame, u32::saturating_sub, first, value)?,
            Code::Test(_, nonzero, zero) => return self.branch(store, frame, nonzero, zero, value),
            Code::Limit(count, _, body) => return self.limit(store, frame, count, body, value),
            Code::Grant(_, body) => return self.grant(store, frame, body, value),
            Code::NewKey(_, body) => return self.open(store, frame, body, value),
            Code::Associate(..) => store.associate(frame, first, value)?,
            Code::Look(_, enabled, other) => return self.look(store, frame, enabled, other, value),
            Code::Divide(..) => store.divide(frame, first, value)?,
            Code::Number(_)
            | Code::Top
            | Code::Host(_)
            | Code::Local(_)
            | Code::Function(_)
            | Code::Shut(_)
            | Code::Spawn(_) => unreachable!("no frame is pushed for it"),
        };
        Ok(Control::Hand(result))
    }

    #[inline(always)]
    fn apply(
        &mut self,
        store: &mut Store,
        frame: &Frame,
        called: Value,
        argument: Value,
    ) -> Result<Control, Stop> {
        store.test(frame, Kind::Function, called)?;
        if store.rooms.bindings >= BINDINGS {
            return Err(Stop::NoRoom);
        }
        let Closure { body, scope } = store.functions[called.index() % FUNCTIONS];
        self.scope = store.bind(argument, scope);
        self.enabled = frame.enabled;
        Ok(Control::Enter(body))
    }

    #[inline(always)]
    fn branch(
        &mut self,
        store: &Store,
        frame: &Frame,
        nonzero: u16,
        zero: u16,
        value: Value,
    ) -> Result<Control, Stop> {
        store.test(frame, Kind::Number, value)?;
        self.scope = frame.scope;
        self.enabled = frame.enabled;
        Ok(Control::Enter(if value.data() != 0 { nonzero } else { zero }))
    }

    #[inline(always)]
    fn limit(
        &mut self,
        store: &Store,
        frame: &Frame,
        count: u8,
        body: u16,
        last: Value,
    ) -> Result<Control, Stop> {
        self.enabled = store.limited(frame, count as usize, last)?;
        self.scope = frame.scope;
        Ok(Control::Enter(body))
    }

    #[inline(always)]
    fn grant(
        &mut self,
        store: &Store,
        frame: &Frame,
        body: u16,
        key: Value,
    ) -> Result<Control, Stop> {
        store.test(frame, Kind::Grant, key)?;
        self.enabled = frame.enabled | 1 << (key.index() % KEYS);
        self.scope = frame.scope;
        Ok(Control::Enter(body))
    }

    /// Makes 3E's key, pair and bindings.
    #[inline(always)]
    fn open(
        &mut self,
        store: &mut Store,
        frame: &Frame,
        body: u16,
        limit: Value,
    ) -> Result<Control, Stop> {
        store.test(frame, Kind::Limit, limit)?;
        if store.rooms.keys >= KEYS || store.rooms.bindings + 2 > BINDINGS {
            return Err(Stop::NoRoom);
        }
        let key = store.rooms.keys as u32;
        let (first, second) = (Value::unkeyed(Kind::Limit, key), Value::unkeyed(Kind::Grant, key));
        let pair = store.new_pair(first, second)?;
        store.new_key(limit.data() as u8);
        // The name's binding is never looked up.
        store.rooms.bindings += 1;
        self.scope = store.bind(pair, frame.scope);
        self.enabled = frame.enabled;
        Ok(Control::Enter(body))
    }

    /// Enters the first branch where the key that the limit key stands for is enabled.
    #[inline(always)]
    fn look(
        &mut self,
        store: &Store,
        frame: &Frame,
        enabled: u16,
        other: u16,
        key: Value,
    ) -> Result<Control, Stop> {
        store.test(frame, Kind::Limit, key)?;
        let open = store.above[key.index() % KEYS] & frame.enabled != 0;
        self.scope = frame.scope;
        self.enabled = frame.enabled;
        Ok(Control::Enter(if open { enabled } else { other }))
    }
}

/// What acts come to, and what they test.
impl Store {
    #[inline(always)]
    fn part(&self, frame: &Frame, part: u8, pair: Value) -> Result<Value, Stop> {
        self.test(frame, Kind::Pair, pair)?;
        Ok(self.pairs[pair.index() % PAIRS][(part as usize - 1) % 2])
    }

    /// Makes a cell that holds a value.
    #[inline(always)]
    fn hold(&mut self, value: Value) -> Result<Value, Stop> {
        if self.rooms.cells >= CELLS {
            return Err(Stop::NoRoom);
        }
        Ok(Value::unkeyed(Kind::Cell, self.new_cell(value)))
    }

    #[inline(always)]
    fn assign(&mut self, frame: &Frame, cell: Value, value: Value) -> Result<Value, Stop> {
        self.test(frame, Kind::Cell, cell)?;
        self.cells[cell.index() % CELLS] = value;
        Ok(value)
    }

    #[inline(always)]
    fn read(&self, frame: &Frame, cell: Value) -> Result<Value, Stop> {
        self.test(frame, Kind::Cell, cell)?;
        Ok(self.cells[cell.index() % CELLS])
    }

    /// A sum or a difference stops at the ends of the numbers. It is unkeyed.
    #[inline(always)]
    fn arithmetic(
        &self,
        frame: &Frame,
        reckon: fn(u32, u32) -> u32,
        a: Value,
        b: Value,
    ) -> Result<Value, Stop> {
        kind(Kind::Number, a)?;
        kind(Kind::Number, b)?;
        self.key(frame, a)?;
        self.key(frame, b)?;
        Ok(Value::unkeyed(Kind::Number, reckon(a.data(), b.data())))
    }

    /// The keys that a limit leaves enabled: in a tree, what is below both of two keys is what is
    /// below the lower one.
    fn limited(&self, frame: &Frame, count: usize, last: Value) -> Result<u128, Stop> {
        let Frame { enabled, hand, .. } = *frame;
        let mut keys = [hand[0], hand[1], hand[2], last];
        keys[count - 1] = last;
        let keys = &keys[..count];
        keys.iter().try_for_each(|&key| kind(Kind::Limit, key))?;
        keys.iter().try_for_each(|&key| self.key(frame, key))?;
        Ok(keys.iter().fold(0, |left, key| {
            let index = key.index() % KEYS;
            left | match self.above[index] & enabled {
                0 => self.below[index] & enabled,
                _ => 1 << index,
            }
        }))
    }

    #[inline(always)]
    fn associate(&self, frame: &Frame, value: Value, limit: Value) -> Result<Value, Stop> {
        kind(Kind::Limit, limit)?;
        self.key(frame, value)?;
        self.key(frame, limit)?;
        Ok(value.with_key(limit.data() as u8))
    }

    /// Makes a pair of quotient and rest. Both are unkeyed.
    #[inline(always)]
    fn divide(&mut self, frame: &Frame, dividend: Value, divisor: Value) -> Result<Value, Stop> {
        kind(Kind::Number, dividend)?;
        kind(Kind::Number, divisor)?;
        self.key(frame, dividend)?;
        self.key(frame, divisor)?;
        let (quotient, rest) = divided(dividend.data(), divisor.data());
        let [quotient, rest] = [quotient, rest].map(|part| Value::unkeyed(Kind::Number, part));
        self.new_pair(quotient, rest)
    }

    /// Whether a value is of a kind, and its key enabled.
    #[inline]
    fn test(&self, frame: &Frame, wanted: Kind, value: Value) -> Result<(), Stop> {
        kind(wanted, value)?;
        self.key(frame, value)
    }

    /// Whether a value's key is enabled.
    #[inline]
    fn key(&self, frame: &Frame, value: Value) -> Result<(), Stop> {
        let key = value.key() as usize;
        let open = self.above[key % KEYS] & frame.enabled != 0;
        if key == 0 || open { Ok(()) } else { Err(Stop::Denied) }
    }

    /// A variable's value, by the number of bindings between.
    #[inline(always)]
    fn local(&self, scope: u16, distance: u16) -> Value {
        let mut binding = &self.bindings[scope as usize % BINDINGS];
        for _ in 0..distance {
            binding = &self.bindings[binding.outer as usize % BINDINGS];
        }
        binding.value
    }
}

/// No room in use but for the top key.
impl Default for Store {
    #[inline(always)]
    fn default() -> Self {
        let mut store = Store {
            rooms: Rooms { keys: 2, ..Rooms::default() },
            code: Vec::new(),
            cells: [Value::default(); CELLS],
            above: [0; KEYS],
            below: [0; KEYS],
            pairs: [[Value::default(); 2]; PAIRS],
            functions: [Closure::default(); FUNCTIONS],
            bindings: [Binding::default(); BINDINGS],
        };
        store.above[1] = 1 << 1;
        store.below[1] = 1 << 1;
        store
    }
}

/// Making things.
impl Store {
    fn new_function(&mut self, body: u16, scope: u16) -> Result<Value, Stop> {
        let number = self.rooms.functions;
        if number >= FUNCTIONS {
            return Err(Stop::NoRoom);
        }
        self.functions[number] = Closure { body, scope };
        self.rooms.functions += 1;
        Ok(Value::unkeyed(Kind::Function, number as u32))
    }

    /// Makes a key below another; there is room.
    pub fn new_key(&mut self, parent: u8) -> u8 {
        let key = self.rooms.keys;
        let mut above = self.above[parent as usize];
        self.above[key] = above | 1 << key;
        self.below[key] = 1 << key;
        while above != 0 {
            self.below[above.trailing_zeros() as usize] |= 1 << key;
            above &= above - 1;
        }
        self.rooms.keys += 1;
        key as u8
    }

    /// Makes a cell; there is room.
    pub fn new_cell(&mut self, content: Value) -> u32 {
        let number = self.rooms.cells;
        self.cells[number] = content;
        self.rooms.cells += 1;
        number as u32
    }

    fn new_pair(&mut self, first: Value, second: Value) -> Result<Value, Stop> {
        let number = self.rooms.pairs;
        if number >= PAIRS {
            return Err(Stop::NoRoom);
        }
        self.pairs[number] = [first, second];
        self.rooms.pairs += 1;
        Ok(Value::unkeyed(Kind::Pair, number as u32))
    }

    /// Makes a binding and gives its number; there is room.
    pub fn bind(&mut self, value: Value, outer: u16) -> u16 {
        let number = self.rooms.bindings;
        self.bindings[number] = Binding { value, outer };
        self.rooms.bindings += 1;
        number as u16
    }

    /// What the cells hold that are in use.
    pub fn cells(&self) -> &[Value] {
        &self.cells[..self.rooms.cells]
    }
}

/// The operand that a frame enters next, with so many in its hand and one more just come.
#[inline(always)]
fn next_operand(code: Code, held: u8) -> Option<u16> {
    match code {
        Code::Pair(_, second)
        | Code::Apply(_, second)
        | Code::Assign(_, second)
        | Code::Sum(_, second)
        | Code::Difference(_, second)
        | Code::Associate(_, second)
        | Code::Divide(_, second)
            if held == 0 =>
        {
            Some(second)
        }
        Code::Limit(count, keys, _) if held + 1 < count => Some(keys[held as usize + 1]),
        _ => None,
    }
}

/// How often a divisor goes into a dividend, and what is left; a divisor of 0 goes in 0 times.
#[inline]
fn divided(dividend: u32, divisor: u32) -> (u32, u32) {
    match divisor {
        0 => (0, dividend),
        _ => (dividend / divisor, dividend % divisor),
    }
}

#[inline]
fn kind(wanted: Kind, value: Value) -> Result<(), Stop> {
    if value.is(wanted) { Ok(()) } else { Err(Stop::Stuck) }
}
