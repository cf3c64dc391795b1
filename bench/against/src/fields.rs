//! Every field of a state in the library's layout, one after the other, with its name.

use mwb::raw::{Entry, Message, Place, System, Waiting};

pub enum Field<'a> {
    Byte(&'a mut u8),
    Mark(&'a mut bool),
    Number(&'a mut u32),
}

impl Field<'_> {
    pub fn value(&self) -> u32 {
        match self {
            Field::Byte(byte) => u32::from(**byte),
            Field::Mark(mark) => u32::from(**mark),
            Field::Number(number) => **number,
        }
    }

    /// As much of a number as the field can hold.
    pub fn set(self, value: u32) {
        match self {
            Field::Byte(byte) => *byte = value as u8,
            Field::Mark(mark) => *mark = value != 0,
            Field::Number(number) => *number = value,
        }
    }
}

/// Made only where it is asked for.
type Name<'a> = &'a dyn Fn() -> String;

/// The first field in which two states differ, with its value in each.
pub fn first_difference(one: &System, other: &System) -> Option<(String, u32, u32)> {
    let mut values = Vec::new();
    each(&mut one.clone(), &mut |_, field| values.push(field.value()));
    let (mut at, mut found) = (0, None);
    each(&mut other.clone(), &mut |name, field| {
        if found.is_none() && field.value() != values[at] {
            found = Some((name(), values[at], field.value()));
        }
        at += 1;
    });
    found
}

pub fn each(system: &mut System, visit: &mut impl FnMut(Name, Field)) {
    each_size(system, visit);
    for (number, line) in system.memory.iter_mut().enumerate() {
        values(&|| format!("memory[{number}]"), &mut line.values, visit);
    }
    for (site, cache) in system.caches.iter_mut().enumerate() {
        for (set, held) in cache.sets.iter_mut().enumerate() {
            place(&|| format!("caches[{site}].sets[{set}].low"), &mut held.low, visit);
        }
    }
    for (site, pends) in system.pends.iter_mut().enumerate() {
        for (number, held) in pends.entries.iter_mut().enumerate() {
            entry(&|| format!("pends[{site}].entries[{number}]"), held, visit);
        }
        visit(&|| format!("pends[{site}].count"), Field::Byte(&mut pends.count));
    }
    for (site, stalls) in system.stalls.iter_mut().enumerate() {
        for (number, held) in stalls.waiting.iter_mut().enumerate() {
            waiting(&|| format!("stalls[{site}].waiting[{number}]"), held, visit);
        }
        visit(&|| format!("stalls[{site}].count"), Field::Byte(&mut stalls.count));
    }
    each_message(system, visit);
}

fn each_size(system: &mut System, visit: &mut impl FnMut(Name, Field)) {
    let sizes = &mut system.sizes;
    let named = [
        ("sites", &mut sizes.sites),
        ("words", &mut sizes.words),
        ("lines", &mut sizes.lines),
        ("sets", &mut sizes.sets),
        ("pend", &mut sizes.pend),
        ("stall", &mut sizes.stall),
    ];
    for (name, size) in named {
        visit(&|| format!("sizes.{name}"), Field::Byte(size));
    }
}

fn each_message(system: &mut System, visit: &mut impl FnMut(Name, Field)) {
    for (name, queues) in [("outgoing", &mut system.outgoing), ("incoming", &mut system.incoming)] {
        for (site, queue) in queues.iter_mut().enumerate() {
            messages(&|| format!("{name}[{site}]"), &mut queue.items, &mut queue.count, visit);
        }
    }
    let System { up, arrived, served, down, .. } = system;
    for (name, queue) in [("up", up), ("arrived", arrived), ("served", served), ("down", down)] {
        messages(&|| name.into(), &mut queue.items, &mut queue.count, visit);
    }
}

fn messages(at: Name, items: &mut [Message], count: &mut u8, visit: &mut impl FnMut(Name, Field)) {
    for (number, item) in items.iter_mut().enumerate() {
        message(&|| format!("{}.items[{number}]", at()), item, visit);
    }
    visit(&|| at() + ".count", Field::Byte(count));
}

fn place(at: Name, place: &mut Place, visit: &mut impl FnMut(Name, Field)) {
    visit(&|| at() + ".used", Field::Mark(&mut place.used));
    visit(&|| at() + ".line", Field::Byte(&mut place.line));
    marks(at, &mut place.dirty, visit);
    values(at, &mut place.values, visit);
}

fn entry(at: Name, entry: &mut Entry, visit: &mut impl FnMut(Name, Field)) {
    visit(&|| at() + ".kind", Field::Byte(&mut entry.kind));
    visit(&|| at() + ".line", Field::Byte(&mut entry.line));
    visit(&|| at() + ".word", Field::Byte(&mut entry.word));
    visit(&|| at() + ".tag", Field::Number(&mut entry.tag));
    visit(&|| at() + ".value", Field::Number(&mut entry.value));
    values(at, &mut entry.values, visit);
}

fn waiting(at: Name, waiting: &mut Waiting, visit: &mut impl FnMut(Name, Field)) {
    visit(&|| at() + ".kind", Field::Byte(&mut waiting.kind));
    visit(&|| at() + ".line", Field::Byte(&mut waiting.line));
    visit(&|| at() + ".word", Field::Byte(&mut waiting.word));
    visit(&|| at() + ".tag", Field::Number(&mut waiting.tag));
    visit(&|| at() + ".value", Field::Number(&mut waiting.value));
}

fn message(at: Name, message: &mut Message, visit: &mut impl FnMut(Name, Field)) {
    visit(&|| at() + ".kind", Field::Byte(&mut message.kind));
    visit(&|| at() + ".site", Field::Byte(&mut message.site));
    visit(&|| at() + ".line", Field::Byte(&mut message.line));
    marks(at, &mut message.dirty, visit);
    values(at, &mut message.values, visit);
}

fn marks(at: Name, marks: &mut [bool; 4], visit: &mut impl FnMut(Name, Field)) {
    for (word, mark) in marks.iter_mut().enumerate() {
        visit(&|| format!("{}.dirty[{word}]", at()), Field::Mark(mark));
    }
}

fn values(at: Name, values: &mut [u32; 4], visit: &mut impl FnMut(Name, Field)) {
    for (word, value) in values.iter_mut().enumerate() {
        visit(&|| format!("{}.values[{word}]", at()), Field::Number(value));
    }
}
