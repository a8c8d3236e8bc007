# Tests of self-calls. Sourced by tools/test.
# shellcheck shell=bash disable=SC2154

begin 'self-calls: no function of the program calls itself without the mark'
run "$tools/self-calls"
ends 0
writes_nothing
tells ''

mkdir -p "$work"/calls/crates/{low,trial_low}/src
cd -- "$work/calls" || exit 1
cat > crates/low/src/lib.rt << 'END'
pub fn any(members: &[u64]) -> bool
    ensures { result ≡ some_lives members }
{
    match members.split_first() {
        Some((first, rest)) => lives(*first) || any(rest),
        None => false,
    }
}

#[cycle(size)]
pub fn size(value: &Value) -> u64 {
    value.items().map(size).sum() + size(value.first())
}

impl Stack {
    /// Calls another function of the same name.
    pub fn push(&mut self) {
        push(&mut self.list); // and not push(self)
    }

    pub(crate) fn drop_all(&mut self) {
        if self.pop() {
            self.drop_all();
        }
    }
}
END
cat > crates/low/src/own.rt << 'END'
use crate::ways::{first_of, Words};

/// A list that holds itself.
pub struct Chain {
    first: u64,
    rest: Option<Box<Chain>>,
    names: Vec<Chain>,
}

pub struct Stack<T> {
    list: Vec<T>,
}

pub enum Shape {
    Round { radius: Words },
    Flat,
}

impl Chain {
    pub fn any(&self) -> bool
        ensures { result ≡ some_lives self.now }
    {
        match &self.rest {
            Some(rest) => lives(self.first) || rest.any(),
            None => false,
        }
    }

    fn sum(&self) -> u64 {
        let Some(rest) = self.tail() else {
            return 0;
        };
        self.first + rest.sum()
    }

    fn len(&self) -> usize {
        self.names.len()
    }

    fn tail(&self) -> Option<&Chain> {
        self.rest.as_deref()
    }
}

impl<T: Copy> Stack<T> {
    fn merge(&self, other: &Stack<T>) -> u64 {
        other
            .list
            .first()
            .map(|it| other.merge(self))
    }

    fn wipe(&mut self) {
        Stack::wipe(self);
    }

    fn clear(&mut self) {
        Self::clear::<Vec<Vec<T>>>(self);
    }

    fn turned(&self) -> u64 {
        self.made_anew().turned()
    }

    fn made_anew(&self) -> Stack<T> {
        let mut made = Stack::new();
        made.list = self.list.clone();
        made
    }

    fn lower(&self) -> u64 {
        let mut made = self.made_anew();
        for it in made.parts() {
            it.lower();
        }
    }

    fn push(&mut self, it: T) -> Result<(), NoMemory> {
        self.list.push(it)
    }

    fn answer(&self, words: &[Words]) -> u64 {
        match words.first() {
            Some(word) => word.answer(),
            None => Words::answer(words),
        }
    }
}

impl<T> Measured for Stack<T> {
    fn size(&self) -> u64 {
        <Stack<T> as Measured>::size(self)
    }

    fn weight(&self) -> u64 {
        Measured::weight(self)
    }

    fn depth(&self) -> u64 {
        self.list.iter().map(|it| it.depth()).sum()
    }

    fn all(&self) -> bool {
        self.list.iter().all(Self::all)
    }

    fn countdown(&self, count: u64) {
        let other = self;
        other.countdown(count - 1);
    }

    fn replace(&mut self) {
        std::mem::replace(&mut self.list, Vec::new());
    }
}

impl Shape {
    pub fn copy(&self) -> Result<Shape, NoMemory> {
        Ok(match self {
            Shape::Round { radius } => Shape::Round {
                radius: radius.copy()?,
            },
            Shape::Flat => Shape::Flat,
        })
    }
}
END
cat > crates/low/src/ways.rt << 'END'
pub struct Words {
    list: Vec<u8>,
}

fn gather<T>(list: &[T]) -> u64 {
    gather::<Vec<Vec<u64>>>(&list[1..])
}

fn first_of(list: &[u64]) -> u64 {
    crate::ways::first_of(&list[1..])
}

fn whole(list: &[u64]) -> u64 {
    Num::whole(list.whole() + trial_low::whole(list))
}

fn depth(list: &[Vec<u64>]) -> u64 {
    list.iter().map(depth).max()
}

fn count(list: &[u64]) -> u64 {
    let mut count = list.len();
    told(count)
}

// A quote between single quotes begins no text, so that the next function is seen.
fn quoted(byte: u8) -> bool {
    byte == b'"'
}

fn unquoted(byte: u8) -> bool {
    byte != b'"' && quoted(byte)
}
END
cp crates/low/src/*.rt crates/trial_low/src

begin 'self-calls: functions and methods that call themselves are told, and calls of others of their name are not'
cat > wanted << 'END'
crates/low/src/lib.rt:1: any
crates/low/src/lib.rt:21: drop_all
crates/low/src/own.rt:20: any
crates/low/src/own.rt:29: sum
crates/low/src/own.rt:46: merge
crates/low/src/own.rt:53: wipe
crates/low/src/own.rt:57: clear
crates/low/src/own.rt:61: turned
crates/low/src/own.rt:71: lower
crates/low/src/own.rt:91: size
crates/low/src/own.rt:95: weight
crates/low/src/own.rt:103: all
crates/low/src/own.rt:107: countdown
crates/low/src/ways.rt:5: gather
crates/low/src/ways.rt:9: first_of
crates/low/src/ways.rt:17: depth
END
run "$tools/self-calls" .
ends 1
writes wanted
tells ''
cd .. || exit 1
