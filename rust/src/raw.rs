//! The library's own structs and calls. include/mwb.h says what each of them means and does.

/// A struct in C's layout, with its size and each field's offset, which C's rules give; the build stops where they differ. Its default is all 0.
macro_rules! c_structs {
    ($($(#[$doc:meta])* $name:ident: $size:literal { $($field:ident: $type:ty = $offset:literal,)* })*) => {$(
        $(#[$doc])*
        #[repr(C)]
        #[derive(Clone, Copy, Debug, Default, PartialEq, Eq)]
        pub struct $name { $(pub $field: $type,)* }

        const _: () = assert!(core::mem::size_of::<$name>() == $size);
        $(const _: () = assert!(core::mem::offset_of!($name, $field) == $offset);)*
    )*};
}

// The parts of a state.
c_structs! {
    Sizes: 6 { sites: u8 = 0, words: u8 = 1, lines: u8 = 2, sets: u8 = 3, pend: u8 = 4, stall: u8 = 5, }
    /// Kind 0 is a fetch, 1 a write-back, 2 a fetch reply, 3 an acknowledgement.
    Message: 24 { kind: u8 = 0, site: u8 = 1, line: u8 = 2, dirty: [bool; 4] = 3, values: [u32; 4] = 8, }
    /// A pend entry. Kind 0 is a Loadl's, 1 a Storel's, 2 a Commit's, 3 a Reconcile's, 4 a voluntary one.
    Entry: 28 { kind: u8 = 0, line: u8 = 1, word: u8 = 2, tag: u32 = 4, value: u32 = 8, values: [u32; 4] = 12, }
    /// An instruction in a stall queue, of an entry's kinds 0 to 3.
    Waiting: 12 { kind: u8 = 0, line: u8 = 1, word: u8 = 2, tag: u32 = 4, value: u32 = 8, }
    Place: 24 { used: bool = 0, line: u8 = 1, dirty: [bool; 4] = 2, values: [u32; 4] = 8, }
    CacheSet: 24 { low: Place = 0, }
    Cache: 192 { sets: [CacheSet; 8] = 0, }
    Pends: 144 { entries: [Entry; 5] = 0, count: u8 = 140, }
    Stalls: 100 { waiting: [Waiting; 8] = 0, count: u8 = 96, }
    SiteQueue: 124 { items: [Message; 5] = 0, count: u8 = 120, }
    Queue: 484 { items: [Message; 20] = 0, count: u8 = 480, }
    Line: 16 { values: [u32; 4] = 0, }
    /// `up` and `down` are the networks, `arrived` is memory's incoming queue and `served` its outgoing one.
    System: 4936 {
        sizes: Sizes = 0,
        memory: [Line; 16] = 8,
        caches: [Cache; 4] = 264,
        pends: [Pends; 4] = 1032,
        stalls: [Stalls; 4] = 1608,
        outgoing: [SiteQueue; 4] = 2008,
        incoming: [SiteQueue; 4] = 2504,
        up: Queue = 3000,
        arrived: Queue = 3484,
        served: Queue = 3968,
        down: Queue = 4452,
    }
}

// What the calls give back. `number` is document 01's number, 0 for done.
c_structs! {
    /// `answered` is 0 for no answer, 1 for a value, 2 for an acknowledgement.
    Given: 32 { number: u32 = 0, place: usize = 8, answered: u32 = 16, site: u32 = 20, tag: u32 = 24, value: u32 = 28, }
    Drained: 24 { number: u32 = 0, quiet: u32 = 4, count: usize = 8, length: usize = 16, }
    SizesRead: 48 {
        number: u32 = 0,
        place: usize = 8,
        next: usize = 16,
        sites: u32 = 24,
        words: u32 = 28,
        lines: u32 = 32,
        sets: u32 = 36,
        pend: u32 = 40,
        stall: u32 = 44,
    }
    StepRead: 48 {
        number: u32 = 0,
        end: u32 = 4,
        place: usize = 8,
        next: usize = 16,
        step: u32 = 24,
        site: u32 = 28,
        instruction: u32 = 32,
        tag: u32 = 36,
        first: u32 = 40,
        second: u32 = 44,
    }
    Wrote: 24 { number: u32 = 0, place: usize = 8, next: usize = 16, }
}

// What a call takes a list of.
c_structs! {
    /// A step's six numbers.
    Row: 24 { step: u32 = 0, site: u32 = 4, instruction: u32 = 8, tag: u32 = 12, first: u32 = 16, second: u32 = 20, }
}

extern "C" {
    pub fn mwb_fresh(s: *mut System, sites: u32, words: u32, lines: u32, sets: u32, pend: u32, stall: u32) -> Given;
    pub fn mwb_sound(s: *const System) -> u32;
    pub fn mwb_step(s: *mut System, step: u32, site: u32, instruction: u32, tag: u32, first: u32, second: u32) -> Given;
    pub fn mwb_drain(s: *mut System, budget: usize, buf: *mut u8, length: usize) -> Drained;
    pub fn mwb_read_sizes(bytes: *const u8, length: usize) -> SizesRead;
    pub fn mwb_read_step(bytes: *const u8, length: usize, at: usize) -> StepRead;
    pub fn mwb_write_sizes(buf: *mut u8, length: usize, sites: u32, words: u32, lines: u32, sets: u32, pend: u32, stall: u32) -> Wrote;
    pub fn mwb_write_step(buf: *mut u8, length: usize, at: usize, step: u32, site: u32, instruction: u32, tag: u32, first: u32, second: u32)
        -> Wrote;
    pub fn mwb_write_record(
        buf: *mut u8,
        length: usize,
        sites: u32,
        words: u32,
        lines: u32,
        sets: u32,
        pend: u32,
        stall: u32,
        numbers: *const u32,
        count: usize,
    ) -> Wrote;
}
