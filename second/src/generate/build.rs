//! Jobs built by the typing rules.

use std::collections::HashMap;

use super::Rng;
use crate::job::*;
use crate::names::{Names, bits};

/// A type of the builder's own table, where equal types have one number.
type Ty = u16;
/// An expression of the builder's own table.
type Node = u16;

/// Local variables are numbered from here until the host values are counted.
const LOCAL: u8 = 128;

struct Made {
    expr: Expr,
    ty: Ty,
    effect: u64,
}

struct Builder<'r> {
    rng: &'r mut Rng,
    names: Names,
    types: Vec<Type>,
    numbers: HashMap<Type, Ty>,
    hosts: Vec<(Ty, u32)>,
    nodes: Vec<Made>,
    locals: u8,
    /// Variables and names in scope.
    variables: Vec<(u8, Ty)>,
    scope: u64,
    /// The names of the keys that are looked at.
    looked: u64,
    /// Whether subtypes are not taken strictly.
    lax: bool,
}

/// What a turn of a loop is made of: the counter and the variable of the loop's cell, a load, the
/// value at the end and its type, and whether the call is the last thing done.
#[derive(Clone, Copy)]
struct Turn {
    n: u8,
    c: u8,
    load: Node,
    base: Node,
    result: Ty,
    tail: bool,
}

/// Builds a job; the rights are mostly those it needs.
pub fn job(rng: &mut Rng, looped: bool) -> Job {
    loop {
        let mut builder = Builder::new(rng);
        let fuel = 1 + builder.rng.below(7);
        let root = match looped {
            true => builder.loop_job(),
            false if builder.rng.chance(40) => {
                let turns = builder.rng.below(25);
                Some(builder.spine(fuel.min(4), turns))
            }
            false => Some(builder.any(fuel)),
        };
        if let Some(job) = root.and_then(|root| builder.finish(root)) {
            return job;
        }
    }
}

impl<'r> Builder<'r> {
    fn new(rng: &'r mut Rng) -> Self {
        let mut names = Names::default();
        let mut open = vec![1];
        let count = if rng.chance(5) { rng.below(30) } else { rng.below(6) };
        for _ in 0..count {
            let upper = rng.pick(&open);
            if rng.chance(15) {
                // A local name that nothing binds.
                names.declare(upper, false);
            } else {
                open.push(names.declare(upper, true));
            }
        }
        let scope = names.host() | 2;
        let lax = rng.chance(12);
        let mut builder = Builder {
            rng,
            names,
            types: Vec::new(),
            numbers: HashMap::new(),
            hosts: Vec::new(),
            nodes: Vec::new(),
            locals: 0,
            variables: Vec::new(),
            scope,
            looked: 0,
            lax,
        };
        for _ in 0..builder.rng.below(5) {
            builder.random_host();
        }
        builder
    }

    // Types.

    fn ty(&mut self, key: u8, shape: Shape) -> Ty {
        let ty = Type { key, shape };
        let next = self.types.len() as Ty;
        *self.numbers.entry(ty).or_insert_with(|| {
            self.types.push(ty);
            next
        })
    }

    fn number(&mut self) -> Ty {
        self.ty(0, Shape::Number)
    }

    fn at(&self, ty: Ty) -> Type {
        self.types[ty as usize]
    }

    /// Every name in a type.
    fn mentions(&self, ty: Ty) -> u64 {
        let Type { key, shape } = self.at(ty);
        1 << key | self.shape_mentions(shape)
    }

    fn shape_mentions(&self, shape: Shape) -> u64 {
        match shape {
            Shape::Number => 0,
            Shape::Pair(a, b) => self.mentions(a) | self.mentions(b),
            Shape::Cell(a) => self.mentions(a),
            Shape::Function(a, b, effect) => self.mentions(a) | self.mentions(b) | effect,
            Shape::Limit(name) | Shape::Grant(name) => 1 << name,
        }
    }

    /// Whether one type is below another; a lax builder takes much that only comes near.
    fn subtype(&self, a: Ty, b: Ty) -> bool {
        let (x, y) = (self.at(a), self.at(b));
        a == b
            || (self.lax || self.names.below(x.key, y.key))
                && match (x.shape, y.shape) {
                    (Shape::Pair(a1, a2), Shape::Pair(b1, b2)) => {
                        self.subtype(a1, b1) && self.subtype(a2, b2)
                    }
                    (Shape::Function(a1, a2, ae), Shape::Function(b1, b2, be)) => {
                        self.subtype(b1, a1)
                            && self.subtype(a2, b2)
                            && (self.lax || self.names.set_below(ae, be))
                    }
                    (Shape::Cell(a), Shape::Cell(b)) if self.lax => self.subtype(a, b),
                    (Shape::Limit(_), Shape::Limit(_)) | (Shape::Grant(_), Shape::Grant(_))
                        if self.lax =>
                    {
                        true
                    }
                    (a, b) => a == b,
                }
    }

    /// A type above (or below) another that mentions none of `avoid`.
    fn widen(&mut self, ty: Ty, avoid: u64, up: bool) -> Option<Ty> {
        let Type { mut key, shape } = self.at(ty);
        while avoid >> key & 1 == 1 || key > 1 && self.rng.chance(10) {
            key = if up { self.names.upper(key) } else { 0 };
        }
        if key == 0 && up && self.rng.chance(15) {
            let names: Vec<u8> = bits(self.scope & !avoid).collect();
            key = self.rng.pick(&names);
        }
        let shape = match shape {
            Shape::Pair(a, b) => Shape::Pair(self.widen(a, avoid, up)?, self.widen(b, avoid, up)?),
            Shape::Function(from, to, effect) => {
                let mut wide = effect & !avoid;
                if up {
                    for name in bits(effect & avoid) {
                        wide |= 1 << self.names.upper(name);
                    }
                    if self.rng.chance(30) {
                        wide |= self.some_names() & !avoid;
                    }
                }
                let effect = self.names.reduce(wide);
                Shape::Function(self.widen(from, avoid, !up)?, self.widen(to, avoid, up)?, effect)
            }
            _ if self.shape_mentions(shape) & avoid == 0 => shape,
            _ => return None,
        };
        Some(self.ty(key, shape))
    }

    fn some_names(&mut self) -> u64 {
        self.scope & self.rng.word() & self.rng.word() & !1
    }

    fn some_name(&mut self) -> u8 {
        let names: Vec<u8> = bits(self.scope).collect();
        self.rng.pick(&names)
    }

    /// No key, or a name in scope.
    fn some_key(&mut self) -> u8 {
        if self.rng.chance(55) { 0 } else { self.some_name() }
    }

    fn some_type(&mut self, depth: usize) -> Ty {
        let key = self.some_key();
        let deep = if depth == 0 { 0 } else { self.rng.below(10) };
        let shape = match deep {
            0..5 => Shape::Number,
            5 => Shape::Pair(self.some_type(depth - 1), self.some_type(depth - 1)),
            6 => Shape::Cell(self.some_type(depth - 1)),
            7 => {
                let effect = self.some_names();
                let effect = self.names.reduce(effect);
                Shape::Function(self.some_type(depth - 1), self.some_type(depth - 1), effect)
            }
            8 => Shape::Limit(self.some_name()),
            _ => Shape::Grant(self.some_name()),
        };
        self.ty(key, shape)
    }

    // Expressions.

    fn of(&self, node: Node) -> &Made {
        &self.nodes[node as usize]
    }

    fn shape(&self, node: Node) -> Shape {
        self.at(self.of(node).ty).shape
    }

    fn touched(&self, node: Node) -> u64 {
        let made = self.of(node);
        made.effect | 1 << self.at(made.ty).key
    }

    /// Adds an expression whose operands have the right types.
    fn add(&mut self, expr: Expr) -> Option<Node> {
        let (ty, effect) = self.typed(expr)?;
        let effect = self.names.reduce(effect);
        self.nodes.push(Made { expr, ty, effect });
        Some(self.nodes.len() as Node - 1)
    }

    /// Type and effect of an expression whose operands have the right types.
    fn typed(&mut self, expr: Expr) -> Option<(Ty, u64)> {
        Some(match expr {
            Expr::Number(_) => (self.number(), 0),
            Expr::Top => (self.ty(0, Shape::Limit(1)), 0),
            Expr::Variable(v) => (self.variables.iter().find(|known| known.0 == v)?.1, 0),
            Expr::Pair(a, b) => {
                let shape = Shape::Pair(self.of(a).ty, self.of(b).ty);
                (self.ty(0, shape), self.of(a).effect | self.of(b).effect)
            }
            Expr::Part(a, part) => match self.shape(a) {
                Shape::Pair(first, _) if part == 1 => (first, self.touched(a)),
                Shape::Pair(_, second) => (second, self.touched(a)),
                _ => return None,
            },
            Expr::Function(_, from, body) => {
                let shape = Shape::Function(from, self.of(body).ty, self.of(body).effect);
                (self.ty(0, shape), 0)
            }
            Expr::Apply(..) | Expr::NewCell(..) | Expr::Assign(..) | Expr::Test(..) => {
                return self.typed_by_subtype(expr);
            }
            Expr::Read(a) => match self.shape(a) {
                Shape::Cell(content) => (content, self.touched(a)),
                _ => return None,
            },
            Expr::Sum(a, b) | Expr::Difference(a, b) | Expr::Divide(a, b) => {
                if [a, b].map(|node| self.shape(node)) != [Shape::Number; 2] {
                    return None;
                }
                let mut ty = self.number();
                if matches!(expr, Expr::Divide(..)) {
                    ty = self.ty(0, Shape::Pair(ty, ty));
                }
                (ty, self.touched(a) | self.touched(b))
            }
            Expr::Spawn(body) if self.of(body).effect == 0 => (self.number(), 0),
            _ => return self.typed_by_keys(expr),
        })
    }

    /// The same of an expression that compares types.
    fn typed_by_subtype(&mut self, expr: Expr) -> Option<(Ty, u64)> {
        Some(match expr {
            Expr::Apply(a, b) => match self.shape(a) {
                Shape::Function(from, to, latent) if self.subtype(self.of(b).ty, from) => {
                    (to, self.touched(a) | self.of(b).effect | latent)
                }
                _ => return None,
            },
            Expr::NewCell(ty, a) if self.subtype(self.of(a).ty, ty) => {
                (self.ty(0, Shape::Cell(ty)), self.of(a).effect)
            }
            Expr::Assign(a, b) => match self.shape(a) {
                Shape::Cell(content) if self.subtype(self.of(b).ty, content) => {
                    (content, self.touched(a) | self.of(b).effect)
                }
                _ => return None,
            },
            Expr::Test(a, b, c, ty) => {
                let fits = self.shape(a) == Shape::Number
                    && self.subtype(self.of(b).ty, ty)
                    && self.subtype(self.of(c).ty, ty);
                if !fits {
                    return None;
                }
                (ty, self.touched(a) | self.of(b).effect | self.of(c).effect)
            }
            _ => return None,
        })
    }

    /// The same of an expression with keys.
    fn typed_by_keys(&mut self, expr: Expr) -> Option<(Ty, u64)> {
        Some(match expr {
            Expr::Limit(count, keys, body) => {
                let (mut effect, mut allowed) = (0, 0);
                for &key in &keys[..count as usize] {
                    let Shape::Limit(name) = self.shape(key) else {
                        return None;
                    };
                    effect |= self.touched(key);
                    allowed |= 1 << name;
                }
                if !self.names.set_below(self.of(body).effect, allowed) {
                    return None;
                }
                (self.of(body).ty, effect | self.of(body).effect)
            }
            Expr::Grant(key, body) => {
                let Shape::Grant(name) = self.shape(key) else { return None };
                let left = self.names.without(self.of(body).effect, name);
                (self.of(body).ty, self.touched(key) | left)
            }
            Expr::NewKey(_, name, key, body, ty) => {
                let fits = self.shape(key) == Shape::Limit(self.names.upper(name))
                    && self.subtype(self.of(body).ty, ty);
                if !fits {
                    return None;
                }
                (ty, self.touched(key) | self.names.raise(self.of(body).effect, name))
            }
            Expr::Associate(value, key) => {
                let Shape::Limit(name) = self.shape(key) else { return None };
                let shape = self.shape(value);
                (self.ty(name, shape), self.touched(value) | self.touched(key))
            }
            Expr::Look(key, a, b, ty) => return self.typed_look(key, a, b, ty),
            _ => return None,
        })
    }

    fn typed_look(&self, key: Node, a: Node, b: Node, ty: Ty) -> Option<(Ty, u64)> {
        let Shape::Limit(name) = self.shape(key) else { return None };
        let (first, second) = (self.of(a), self.of(b));
        let fits = self.subtype(first.ty, ty) && self.subtype(second.ty, ty);
        let left = self.names.without(first.effect, name);
        fits.then(|| (ty, self.touched(key) | left | second.effect))
    }

    /// A number, often at an end of the numbers or near it.
    fn some_word(&mut self) -> u32 {
        match self.rng.below(12) {
            0 | 1 => 0,
            2 => u32::MAX,
            3 => u32::MAX - self.rng.below(5) as u32,
            4 | 5 => self.rng.word() as u32,
            _ => self.rng.below(10) as u32,
        }
    }

    fn some_number(&mut self) -> Node {
        let number = self.some_word();
        self.literal(number)
    }

    /// The sum or the difference of two numbers.
    fn reckoned(&mut self, a: Node, b: Node) -> Option<Node> {
        let sum = self.rng.chance(50);
        self.add(if sum { Expr::Sum(a, b) } else { Expr::Difference(a, b) })
    }

    /// A part of a division.
    fn shared(&mut self, a: Node, b: Node) -> Option<Node> {
        let pair = self.add(Expr::Divide(a, b))?;
        let part = 1 + self.rng.below(2) as u8;
        self.add(Expr::Part(pair, part))
    }

    fn literal(&mut self, number: u32) -> Node {
        self.add(Expr::Number(number)).expect("a number has no operands")
    }

    fn new_variable(&mut self) -> Option<u8> {
        if self.locals as usize + self.hosts.len() >= VARIABLES - 4 {
            return None;
        }
        self.locals += 1;
        Some(LOCAL + self.locals - 1)
    }

    /// Something built with a variable in scope.
    fn under(
        &mut self,
        variable: u8,
        ty: Ty,
        build: impl FnOnce(&mut Self) -> Option<Node>,
    ) -> Option<Node> {
        self.variables.push((variable, ty));
        let node = build(self);
        self.variables.retain(|known| known.0 != variable);
        node
    }

    fn host(&mut self, ty: Ty, number: u32) -> Option<Node> {
        if self.locals as usize + self.hosts.len() >= VARIABLES - 4 {
            return None;
        }
        let v = self.hosts.len() as u8;
        self.hosts.push((ty, number));
        self.variables.insert(0, (v, ty));
        self.add(Expr::Variable(v))
    }

    fn host_key(&mut self) -> u8 {
        let names: Vec<u8> = bits(self.names.host() | 2).collect();
        if self.rng.chance(40) { 0 } else { self.rng.pick(&names) }
    }

    fn random_host(&mut self) -> Option<Node> {
        let key = self.host_key();
        let names: Vec<u8> = bits(self.names.host() | 2).collect();
        let name = self.rng.pick(&names);
        let number = self.number();
        let shape = match self.rng.below(4) {
            0 | 1 => Shape::Cell(number),
            2 => Shape::Limit(name),
            _ => Shape::Grant(name),
        };
        let ty = self.ty(key, shape);
        let number = match shape {
            Shape::Cell(_) if self.rng.chance(30) => self.some_word(),
            Shape::Cell(_) => self.rng.below(1000) as u32,
            _ => 0,
        };
        self.host(ty, number)
    }

    /// A variable in scope that passes a test.
    fn variable(&mut self, test: impl Fn(&Self, Ty) -> bool) -> Option<Node> {
        let fit: Vec<u8> =
            self.variables.iter().filter(|&&(_, ty)| test(self, ty)).map(|&(v, _)| v).collect();
        if fit.is_empty() {
            return None;
        }
        let v = self.rng.pick(&fit);
        self.add(Expr::Variable(v))
    }

    /// A limit or grant key of a name in scope.
    fn key(&mut self, name: u8, grant: bool) -> Option<Node> {
        let shape = if grant { Shape::Grant(name) } else { Shape::Limit(name) };
        if name == 1 && !grant && self.rng.chance(60) {
            return self.add(Expr::Top);
        }
        if let Some(known) = self.variable(|b, ty| b.at(ty).shape == shape) {
            return Some(known);
        }
        let (limit, own) = (self.ty(0, Shape::Limit(name)), self.ty(0, Shape::Grant(name)));
        if let Some(pair) = self.variable(|b, ty| b.at(ty).shape == Shape::Pair(limit, own)) {
            return self.add(Expr::Part(pair, 1 + grant as u8));
        }
        if (self.names.host() | 2) >> name & 1 == 0 {
            return None;
        }
        let key = self.host_key();
        let ty = self.ty(key, shape);
        self.host(ty, 0)
    }

    /// Any expression at all.
    fn any(&mut self, fuel: usize) -> Node {
        let node = match fuel {
            0 => None,
            _ => self.grown(fuel - 1).or_else(|| self.grown(fuel - 1)),
        };
        match node.or_else(|| self.leaf()) {
            Some(node) => node,
            None => self.some_number(),
        }
    }

    /// Something with many others around it, whose values it can use.
    fn spine(&mut self, fuel: usize, turns: usize) -> Node {
        if turns == 0 {
            return self.any(fuel);
        }
        let inside = |b: &mut Self| Some(b.spine(fuel, turns - 1));
        let around = match self.rng.below(6) {
            0 => self.key_around(inside),
            1 => {
                let (first, rest) = (self.any(fuel), self.spine(fuel, turns - 1));
                self.add(Expr::Pair(first, rest)).and_then(|pair| self.add(Expr::Part(pair, 2)))
            }
            _ => self.let_in(fuel, inside),
        };
        match around {
            Some(node) => node,
            None => self.any(fuel),
        }
    }

    /// A function applied to something, its body having it as a variable.
    fn let_in(
        &mut self,
        fuel: usize,
        body: impl FnOnce(&mut Self) -> Option<Node>,
    ) -> Option<Node> {
        let argument = self.any(fuel);
        let v = self.new_variable()?;
        let ty = self.widen(self.of(argument).ty, 0, true)?;
        let body = self.under(v, ty, body)?;
        let function = self.add(Expr::Function(v, ty, body))?;
        self.add(Expr::Apply(function, argument))
    }

    fn leaf(&mut self) -> Option<Node> {
        match self.rng.below(6) {
            0 => self.add(Expr::Top),
            1 => Some(self.some_number()),
            2 if self.hosts.len() < 12 => self.random_host(),
            _ => self.variable(|_, _| true),
        }
    }

    /// An expression of a command drawn by lot.
    fn grown(&mut self, fuel: usize) -> Option<Node> {
        if self.nodes.len() > 700 {
            return None;
        }
        match self.rng.below(21) {
            0 => self.pair(fuel),
            1 => {
                let pair = self.of_kind(Kind::Pair, fuel)?;
                let part = 1 + self.rng.below(2) as u8;
                self.add(Expr::Part(pair, part))
            }
            2 => self.function(fuel),
            3 | 4 => self.applied(fuel),
            5 => self.new_cell(fuel),
            6 | 7 => self.assigned(fuel),
            8 => {
                let cell = self.of_kind(Kind::Cell, fuel)?;
                self.add(Expr::Read(cell))
            }
            9 | 10 => {
                let (a, b) = (self.of_kind(Kind::Number, fuel)?, self.of_kind(Kind::Number, fuel)?);
                self.reckoned(a, b)
            }
            19 => self.divided(fuel),
            20 => self.spawn(fuel),
            14..17 => self.new_key(fuel),
            around => {
                let keyed = matches!(around, 12 | 13 | 18);
                let node = if keyed { self.keyed(fuel) } else { self.any(fuel) };
                match around {
                    11 => self.test(node, fuel),
                    12 => self.limit(node),
                    13 => self.grant(node),
                    18 => self.look(node, fuel),
                    _ => self.associate(node),
                }
            }
        }
    }

    fn pair(&mut self, fuel: usize) -> Option<Node> {
        let (a, b) = (self.any(fuel), self.any(fuel));
        self.add(Expr::Pair(a, b))
    }

    fn divided(&mut self, fuel: usize) -> Option<Node> {
        let (a, b) = (self.of_kind(Kind::Number, fuel)?, self.of_kind(Kind::Number, fuel)?);
        self.add(Expr::Divide(a, b))
    }

    /// A thread whose body mostly has no effect.
    fn spawn(&mut self, fuel: usize) -> Option<Node> {
        let mut body = self.any(fuel);
        if self.of(body).effect != 0 && self.rng.chance(60) {
            body = self.grant(body)?;
        }
        let expr = Expr::Spawn(body);
        if self.of(body).effect != 0 && self.rng.chance(30) {
            let ty = self.number();
            self.nodes.push(Made { expr, ty, effect: 0 });
            return Some(self.nodes.len() as Node - 1);
        }
        self.add(expr)
    }

    fn applied(&mut self, fuel: usize) -> Option<Node> {
        let function = self.of_kind(Kind::Function, fuel)?;
        let Shape::Function(from, ..) = self.shape(function) else {
            return None;
        };
        let argument = self.of_type(from, fuel)?;
        self.add(Expr::Apply(function, argument))
    }

    fn new_cell(&mut self, fuel: usize) -> Option<Node> {
        let content = self.any(fuel);
        let ty = self.widen(self.of(content).ty, 0, true)?;
        self.add(Expr::NewCell(ty, content))
    }

    fn assigned(&mut self, fuel: usize) -> Option<Node> {
        let cell = self.of_kind(Kind::Cell, fuel)?;
        let Shape::Cell(content) = self.shape(cell) else {
            return None;
        };
        let value = self.of_type(content, fuel)?;
        self.add(Expr::Assign(cell, value))
    }

    /// An expression that mostly has an effect.
    fn keyed(&mut self, fuel: usize) -> Node {
        let node = self.any(fuel);
        if self.of(node).effect != 0 {
            return node;
        }
        let name = self.some_name();
        self.put_to_use(name, fuel).unwrap_or(node)
    }

    fn function(&mut self, fuel: usize) -> Option<Node> {
        let v = self.new_variable()?;
        let from = self.some_type(2);
        let body = self.under(v, from, |b| Some(b.any(fuel)))?;
        self.add(Expr::Function(v, from, body))
    }

    fn of_kind(&mut self, kind: Kind, fuel: usize) -> Option<Node> {
        if self.rng.chance(45)
            && let Some(known) = self.variable(|b, ty| b.at(ty).kind() == kind)
        {
            return Some(known);
        }
        let less = fuel.saturating_sub(1);
        let node = match kind {
            Kind::Number if fuel > 0 && self.rng.chance(50) => {
                let (a, b) = (self.of_kind(kind, less)?, self.of_kind(kind, less)?);
                if self.rng.chance(20) { self.shared(a, b)? } else { self.reckoned(a, b)? }
            }
            Kind::Number => self.some_number(),
            Kind::Pair if self.rng.chance(25) => self.divided(less)?,
            Kind::Pair => self.pair(less)?,
            Kind::Cell => self.new_cell(less)?,
            Kind::Function => self.function(less)?,
            Kind::Limit | Kind::Grant => {
                let name = self.some_name();
                self.key(name, kind == Kind::Grant)?
            }
        };
        Some(self.wrapped(node, less))
    }

    /// An expression whose type is a subtype of the given one.
    fn of_type(&mut self, ty: Ty, fuel: usize) -> Option<Node> {
        if self.rng.chance(40)
            && let Some(known) = self.variable(|b, known| b.subtype(known, ty))
        {
            return Some(known);
        }
        let less = fuel.saturating_sub(1);
        let Type { key, shape } = self.at(ty);
        let node = self.of_shape(shape, fuel)?;
        let node = if fuel > 0 { self.wrapped(node, less) } else { node };
        if self.subtype(self.of(node).ty, ty) {
            if key > 1
                && self.rng.chance(50)
                && let Some(limit) = self.key(key, false)
                && let Some(keyed) = self.add(Expr::Associate(node, limit))
            {
                return Some(keyed);
            }
            return Some(node);
        }
        // What was wrapped around it may have given it a higher type.
        if fuel > 0 { self.of_type(ty, 0) } else { None }
    }

    /// An expression of a shape, or where subtypes are not taken strictly, of one near it.
    fn of_shape(&mut self, shape: Shape, fuel: usize) -> Option<Node> {
        let less = fuel.saturating_sub(1);
        match shape {
            Shape::Number if fuel > 0 => self.of_kind(Kind::Number, less),
            Shape::Number => Some(self.some_number()),
            Shape::Pair(a, b) => {
                let (a, b) = (self.of_type(a, less)?, self.of_type(b, less)?);
                self.add(Expr::Pair(a, b))
            }
            Shape::Cell(mut content) => {
                if self.lax {
                    let up = self.rng.chance(50);
                    content = self.widen(content, 0, up)?;
                }
                let value = self.of_type(content, less)?;
                self.add(Expr::NewCell(content, value))
            }
            Shape::Function(from, to, effect) => {
                let up = !self.lax || self.rng.chance(50);
                let from = self.widen(from, 0, up)?;
                let v = self.new_variable()?;
                let mut body = self.under(v, from, |b| b.of_type(to, less))?;
                if !self.names.set_below(self.of(body).effect, effect) {
                    body = self.under(v, from, |b| b.of_type(to, 0))?;
                }
                self.add(Expr::Function(v, from, body))
            }
            Shape::Limit(name) | Shape::Grant(name) => {
                let name = if self.lax { self.some_name() } else { name };
                self.key(name, matches!(shape, Shape::Grant(_)))
            }
        }
    }

    /// The expression with something around it that keeps its kind.
    fn wrapped(&mut self, node: Node, fuel: usize) -> Node {
        if fuel == 0 || self.rng.chance(55) || self.nodes.len() > 700 {
            return node;
        }
        let around = match self.rng.below(10) {
            0 => self.limit(node),
            1 => self.grant(node),
            2 => self.test(node, fuel),
            3 => self.identity(node),
            4 => {
                let other = self.any(fuel - 1);
                let first = self.rng.chance(50);
                let pair = if first { Expr::Pair(node, other) } else { Expr::Pair(other, node) };
                self.add(pair).and_then(|pair| self.add(Expr::Part(pair, 2 - first as u8)))
            }
            5 => {
                let ty = self.of(node).ty;
                self.widen(ty, 0, true)
                    .and_then(|ty| self.add(Expr::NewCell(ty, node)))
                    .and_then(|cell| self.add(Expr::Read(cell)))
            }
            6 | 7 => self.associate(node),
            8 => self.look(node, fuel),
            _ => self.key_around(move |_| Some(node)),
        };
        around.unwrap_or(node)
    }

    fn limit(&mut self, body: Node) -> Option<Node> {
        let mut names = Vec::new();
        // Now and then a limit whose keys need not reach.
        let careless = self.of(body).effect != 0 && self.rng.chance(15);
        for name in bits(self.of(body).effect) {
            let mut above = if careless { self.some_name() } else { name };
            while above != 1 && self.rng.chance(30) {
                above = self.names.upper(above);
            }
            names.push(above);
        }
        while names.len() < 4 && self.rng.chance(40) {
            names.push(self.some_name());
        }
        if names.len() > 4 {
            names = vec![1];
        }
        let mut keys = [UNUSED; 4];
        for (place, &name) in names.iter().enumerate() {
            keys[place] = self.key(name, false)?;
        }
        if careless {
            names.truncate(self.rng.below(5));
            keys[names.len()..].fill(UNUSED);
        }
        let expr = Expr::Limit(names.len() as u8, keys, body);
        if careless {
            let Made { ty, effect, .. } = *self.of(body);
            self.nodes.push(Made { expr, ty, effect });
            return Some(self.nodes.len() as Node - 1);
        }
        self.add(expr)
    }

    fn grant(&mut self, body: Node) -> Option<Node> {
        let mut name = self.some_name();
        if self.rng.chance(70)
            && let Some(used) = bits(self.of(body).effect).next()
        {
            name = used;
        }
        let key = self.key(name, true)?;
        self.add(Expr::Grant(key, body))
    }

    fn associate(&mut self, value: Node) -> Option<Node> {
        let name = self.some_name();
        let key = self.key(name, false)?;
        self.add(Expr::Associate(value, key))
    }

    fn test(&mut self, node: Node, fuel: usize) -> Option<Node> {
        let ty = self.widen(self.of(node).ty, 0, true)?;
        let other = self.of_type(ty, fuel.saturating_sub(1))?;
        let number = self.of_kind(Kind::Number, fuel.saturating_sub(1))?;
        let first = self.rng.chance(50);
        let (a, b) = if first { (node, other) } else { (other, node) };
        self.add(Expr::Test(number, a, b, ty))
    }

    /// A look at a key, mostly of a name that the expression uses or of one above it.
    fn look(&mut self, node: Node, fuel: usize) -> Option<Node> {
        let mut name = self.some_name();
        if self.rng.chance(75)
            && let Some(used) = bits(self.of(node).effect).next()
        {
            name = used;
            while name != 1 && self.rng.chance(25) {
                name = self.names.upper(name);
            }
        }
        let less = fuel.saturating_sub(1);
        let ty = self.widen(self.of(node).ty, 0, true)?;
        let other = self.of_type(ty, less)?;
        let key = self.key(name, false)?;
        let key = self.wrapped(key, less);
        let first = self.rng.chance(75);
        let (a, b) = if first { (node, other) } else { (other, node) };
        let look = self.add(Expr::Look(key, a, b, ty))?;
        self.looked |= 1 << name;
        match self.rng.below(8) {
            0 => self.limit(look),
            1 => {
                let key = self.key(name, true)?;
                self.add(Expr::Grant(key, look))
            }
            _ => Some(look),
        }
    }

    /// The expression as the argument of a function that hands it back.
    fn identity(&mut self, node: Node) -> Option<Node> {
        let v = self.new_variable()?;
        let ty = self.widen(self.of(node).ty, 0, true)?;
        let body = self.under(v, ty, |b| b.add(Expr::Variable(v)))?;
        let function = self.add(Expr::Function(v, ty, body))?;
        self.add(Expr::Apply(function, node))
    }

    fn new_key(&mut self, fuel: usize) -> Option<Node> {
        self.key_around(|b| Some(b.keyed_body(fuel)))
    }

    /// Something for the body of a 3E: often a cell with the new key that is put to use.
    fn keyed_body(&mut self, fuel: usize) -> Node {
        if self.rng.chance(35) {
            return self.any(fuel);
        }
        let name = 63 - (self.scope.leading_zeros() as u8);
        let used = self.put_to_use(name, fuel);
        let granted = match used {
            Some(used) if self.rng.chance(50) => self.grant(used),
            used => used,
        };
        match granted {
            Some(node) => node,
            None => self.any(fuel),
        }
    }

    /// Something associated with a name and put to use.
    fn put_to_use(&mut self, name: u8, fuel: usize) -> Option<Node> {
        let kind = self.rng.pick(&[Kind::Number, Kind::Pair, Kind::Cell, Kind::Function]);
        let value = self.of_kind(kind, fuel)?;
        let key = self.key(name, false)?;
        let keyed = self.add(Expr::Associate(value, key))?;
        match self.shape(keyed) {
            Shape::Number => {
                let one = self.some_number();
                match self.rng.below(6) {
                    0 => self.shared(keyed, one),
                    1 => self.shared(one, keyed),
                    _ => self.add(Expr::Sum(keyed, one)),
                }
            }
            Shape::Pair(..) => self.add(Expr::Part(keyed, 1)),
            Shape::Cell(_) => self.add(Expr::Read(keyed)),
            Shape::Function(from, ..) => {
                let argument = self.of_type(from, 0)?;
                self.add(Expr::Apply(keyed, argument))
            }
            _ => Some(keyed),
        }
    }

    /// A 3E around what `build` gives: with a type above its own if that may leave the scope, else
    /// with a number beside it.
    fn key_around(&mut self, build: impl FnOnce(&mut Self) -> Option<Node>) -> Option<Node> {
        if self.names.count() >= 60 {
            return None;
        }
        let upper = self.some_name();
        let limit = self.key(upper, false)?;
        let v = self.new_variable()?;
        let name = self.names.declare(upper, false);
        let own = 1 << name;
        let parts = (self.ty(0, Shape::Limit(name)), self.ty(0, Shape::Grant(name)));
        let pair = self.ty(0, Shape::Pair(parts.0, parts.1));
        self.scope |= own;
        let body = self.under(v, pair, build);
        self.scope &= !own;
        let mut body = body?;
        let ty = match self.widen(self.of(body).ty, own, true) {
            Some(ty) => ty,
            None => {
                let number = self.some_number();
                let both = self.add(Expr::Pair(body, number))?;
                body = self.add(Expr::Part(both, 2))?;
                self.number()
            }
        };
        self.add(Expr::NewKey(v, name, limit, body, ty))
    }

    // Loops: a cell holds a function that reads the cell and calls what it finds.

    fn loop_job(&mut self) -> Option<Node> {
        let number = self.number();
        let (n, c) = (self.new_variable()?, self.new_variable()?);
        let load = self.under(n, number, |b| b.load())?;
        let cell_key = self.some_key();
        let result = if self.rng.chance(70) { number } else { self.some_type(1) };
        let base = self.under(n, number, |b| b.of_type(result, 1))?;
        let mut effect = self.of(load).effect | self.of(base).effect | 1 << cell_key;
        if self.rng.chance(20) {
            effect |= self.some_names();
        }
        let effect = self.names.reduce(effect);
        let function = self.ty(0, Shape::Function(number, result, effect));
        let cell = self.ty(cell_key, Shape::Cell(function));
        let tail = result != number || self.rng.chance(70);
        let count = match self.rng.below(5) {
            0 => self.rng.below(6) as u32,
            1 => self.rng.below(300) as u32,
            _ => 5000,
        };
        let turn = Turn { n, c, load, base, result, tail };
        let around = self.under(c, cell, |b| b.run_loop(turn, count))?;
        let made = self.loop_cell(function, cell_key, result)?;
        let outer = self.add(Expr::Function(c, cell, around))?;
        let node = self.add(Expr::Apply(outer, made))?;
        Some(self.wrapped(node, 2))
    }

    /// Puts the function of a loop into its cell, and calls it with a count.
    fn run_loop(&mut self, turn: Turn, count: u32) -> Option<Node> {
        let number = self.number();
        let body = self.under(turn.n, number, |b| b.loop_body(turn))?;
        let looped = self.add(Expr::Function(turn.n, number, body))?;
        let held = self.add(Expr::Variable(turn.c))?;
        let assigned = self.add(Expr::Assign(held, looped))?;
        let count = self.literal(count);
        self.add(Expr::Apply(assigned, count))
    }

    /// One turn: the load, and where the counter is not zero a call with one less.
    fn loop_body(&mut self, turn: Turn) -> Option<Node> {
        let Turn { n, c, load, base, result, tail } = turn;
        let number = self.number();
        let one = self.literal(1);
        let also_one = self.literal(1);
        let step = self.add(Expr::Test(load, one, also_one, number))?;
        let counter = self.add(Expr::Variable(n))?;
        let less = self.add(Expr::Difference(counter, step))?;
        let held = self.add(Expr::Variable(c))?;
        let itself = self.add(Expr::Read(held))?;
        let mut again = self.add(Expr::Apply(itself, less))?;
        if !tail {
            let one = self.literal(1);
            again = self.add(Expr::Sum(again, one))?;
        }
        let tested = self.add(Expr::Variable(n))?;
        self.add(Expr::Test(tested, again, base, result))
    }

    /// The cell of a loop, with a function that does nothing.
    fn loop_cell(&mut self, function: Ty, key: u8, result: Ty) -> Option<Node> {
        let number = self.number();
        let v = self.new_variable()?;
        let nothing = self.under(v, number, |b| b.of_type(result, 0))?;
        let first = self.add(Expr::Function(v, number, nothing))?;
        let made = self.add(Expr::NewCell(function, first))?;
        if key == 0 {
            return Some(made);
        }
        let limit = self.key(key, false)?;
        self.add(Expr::Associate(made, limit))
    }

    /// A number worked out in each turn of a loop; it mostly uses up one kind of room.
    fn load(&mut self) -> Option<Node> {
        let number = self.number();
        match self.rng.below(10) {
            0 => Some(self.some_number()),
            1 => {
                let value = self.some_number();
                let cell = self.add(Expr::NewCell(number, value))?;
                self.add(Expr::Read(cell))
            }
            2 => {
                let (a, b) = (self.some_number(), self.some_number());
                if self.rng.chance(50) {
                    return self.shared(a, b);
                }
                let pair = self.add(Expr::Pair(a, b))?;
                self.add(Expr::Part(pair, 1))
            }
            3 => self.function_load(),
            9 => self.spawn(2),
            4 | 5 => self.key_load(),
            6 => {
                let mut sum = self.some_number();
                for _ in 0..20 + self.rng.below(80) {
                    let other = self.some_number();
                    sum = self.reckoned(sum, other)?;
                }
                Some(sum)
            }
            _ => self.of_kind(Kind::Number, 4),
        }
    }

    /// A load that makes functions.
    fn function_load(&mut self) -> Option<Node> {
        let number = self.number();
        let (x, y) = (self.new_variable()?, self.new_variable()?);
        let inner = self.under(y, number, |b| b.add(Expr::Variable(y)))?;
        let inner = self.add(Expr::Function(y, number, inner))?;
        let ty = self.of(inner).ty;
        let body = self.some_number();
        let outer = self.add(Expr::Function(x, ty, body))?;
        self.add(Expr::Apply(outer, inner))
    }

    /// A load that makes a key.
    fn key_load(&mut self) -> Option<Node> {
        let number = self.key_around(|b| Some(b.keyed_body(1)))?;
        match self.shape(number) {
            Shape::Number => Some(number),
            _ => {
                let both = self.some_number();
                let pair = self.add(Expr::Pair(number, both))?;
                self.add(Expr::Part(pair, 2))
            }
        }
    }

    // The end.

    /// The job whose last expression is the root, if there is room for it.
    fn finish(mut self, root: Node) -> Option<Job> {
        let order = self.order(root);
        if order.len() > EXPRESSIONS {
            return None;
        }
        let places: HashMap<Node, u16> = order.iter().copied().zip(0..).collect();
        let mut job = Job { names: self.names.clone(), ..Job::default() };
        let mut declared = HashMap::new();
        for index in 0..self.hosts.len() {
            let (ty, number) = self.hosts[index];
            let ty = self.declare(&mut job, &mut declared, ty)?;
            job.hosts.push(HostValue { ty, number });
        }
        let free = self.free_variables(job.hosts.len());
        for &node in &order {
            let mut expr = self.of(node).expr;
            expr.each_operand_mut(|operand| *operand = places[operand]);
            let variable = |v: u8| if v >= LOCAL { free[(v - LOCAL) as usize] } else { v };
            match &mut expr {
                Expr::Variable(v) => *v = variable(*v),
                Expr::Function(v, ty, _) | Expr::NewKey(v, _, _, _, ty) => {
                    *v = variable(*v);
                    *ty = self.declare(&mut job, &mut declared, *ty)?;
                }
                Expr::NewCell(ty, _) | Expr::Test(_, _, _, ty) | Expr::Look(_, _, _, ty) => {
                    *ty = self.declare(&mut job, &mut declared, *ty)?;
                }
                _ => {}
            }
            job.exprs.push(expr);
        }
        job.rights = self.rights(self.of(root).effect);
        Some(job)
    }

    /// The variables that are left beside so many host values, in order or in none.
    fn free_variables(&mut self, hosts: usize) -> Vec<u8> {
        let mut free: Vec<u8> = (hosts as u8..VARIABLES as u8).collect();
        if self.rng.chance(50) {
            for place in (1..free.len()).rev() {
                free.swap(place, self.rng.below(place + 1));
            }
        }
        free
    }

    /// The expressions below a root, operands before their users.
    fn order(&mut self, root: Node) -> Vec<Node> {
        let mut order = Vec::new();
        let mut open = vec![root];
        let mixed = self.rng.chance(50);
        while !open.is_empty() {
            let last = open.len() - 1;
            let next = if mixed { self.rng.below(open.len()) } else { last };
            let node = open.swap_remove(next);
            order.push(node);
            self.of(node).expr.each_operand(|&operand| open.push(operand));
        }
        order.reverse();
        order
    }

    fn declare(&mut self, job: &mut Job, declared: &mut HashMap<Ty, u16>, ty: Ty) -> Option<u16> {
        if let Some(&known) = declared.get(&ty)
            && !self.rng.chance(3)
        {
            return Some(known);
        }
        let mut entry = self.at(ty);
        match &mut entry.shape {
            Shape::Pair(a, b) | Shape::Function(a, b, _) => {
                *a = self.declare(job, declared, *a)?;
                *b = self.declare(job, declared, *b)?;
            }
            Shape::Cell(a) => *a = self.declare(job, declared, *a)?,
            _ => {}
        }
        if job.types.len() == TYPES {
            return None;
        }
        job.types.push(entry);
        let number = job.types.len() as u16 - 1;
        declared.insert(ty, number);
        Some(number)
    }

    fn rights(&mut self, effect: u64) -> u64 {
        let open = self.names.host() | 2;
        let rights = match self.rng.below(22) {
            0..12 => effect,
            12..15 => effect | open & self.rng.word() & self.rng.word(),
            15 | 16 => bits(effect).fold(0, |set, name| set | 1 << self.names.upper(name).max(1)),
            17 => 2,
            18 => effect & self.rng.word(),
            19 | 20 => effect | self.looked,
            _ => open & self.rng.word(),
        };
        self.names.reduce(rights & open)
    }
}
