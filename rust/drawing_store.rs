//! The drawing store for Rust: the calls of the static library as safe functions on words that the caller lends.
//!
//! ```
//! use drawing_store::{arena_length, Handle, Store};
//!
//! let mut words = vec![0; arena_length(2)];
//! let mut work = vec![Handle::NONE; 4096];
//! let mut store = Store::make(&mut words, 2).unwrap();
//! let panel = store.allocate(2, 2, 0).unwrap();
//! let lower = store.allocate(1, 0, 1).unwrap();
//! let upper = store.allocate(1, 0, 2).unwrap();
//! store.write_reference(panel, 0, lower).unwrap();
//! store.write_reference(panel, 1, upper).unwrap();
//! assert_eq!(store.collect(&[panel], &mut work).unwrap(), [panel, lower, upper]);
//! ```
//!
//! Nothing needs checking before a call, and a refused call alters nothing. The crate links `libdrawing_c.a`, which
//! `rt lib` in crates/drawing_c writes: `rustc -L crates/drawing_c/out -l static=drawing_c`.

mod face {
    extern "C" {
        pub fn ds_make(arena: *mut u32, len: usize, segments: u32) -> u32;
        pub fn ds_allocate(arena: *mut u32, len: usize, n: u32, r: u32, tag: u8, handle: *mut u32) -> u32;
        pub fn ds_standing(arena: *const u32, len: usize, handle: u32, standing: *mut u32, n: *mut u32, r: *mut u32, tag: *mut u32) -> u32;
        pub fn ds_shape(arena: *const u32, len: usize, handle: u32, n: *mut u32, r: *mut u32, tag: *mut u32) -> u32;
        pub fn ds_read_reference(arena: *const u32, len: usize, handle: u32, field: u32, value: *mut u32) -> u32;
        pub fn ds_write_reference(arena: *mut u32, len: usize, handle: u32, field: u32, value: u32) -> u32;
        pub fn ds_read_plain(arena: *const u32, len: usize, handle: u32, field: u32, value: *mut u32) -> u32;
        pub fn ds_write_plain(arena: *mut u32, len: usize, handle: u32, field: u32, value: u32) -> u32;
        pub fn ds_plain_words(arena: *const u32, len: usize, handle: u32, offset: *mut usize, count: *mut usize) -> u32;
        pub fn ds_room(arena: *const u32, len: usize, class: u32, room: *mut u32) -> u32;
        pub fn ds_collect(arena: *mut u32, len: usize, roots: *const u32, root_count: usize, work: *mut u32, work_len: usize, count: *mut u32) -> u32;
    }
}

/// The length in words of an arena of so many segments, 1 to 64.
pub const fn arena_length(segments: usize) -> usize {
    11 + 4164 * segments
}

/// A block's handle, or none. Any number may be asked about.
#[derive(Clone, Copy, Debug, PartialEq, Eq, Hash, PartialOrd, Ord)]
#[repr(transparent)]
pub struct Handle(pub u32);

impl Handle {
    pub const NONE: Handle = Handle(0);
}

/// A block's words behind its header, how many of them are references, and its tag.
#[derive(Clone, Copy, Debug, PartialEq, Eq)]
pub struct Shape {
    pub n: u32,
    pub r: u32,
    pub tag: u8,
}

/// What a handle stands for.
#[derive(Clone, Copy, Debug, PartialEq, Eq)]
pub enum Standing {
    None,
    Outside,
    Free,
    Taken(Shape),
}

/// Why a call altered nothing. The lowest number that applies is given.
#[derive(Clone, Copy, Debug, PartialEq, Eq)]
pub enum Refusal {
    /// make: segments not 1 to 64, or the length differs
    Size = 1,
    /// the arena isn't sound
    Unsound = 2,
    /// allocate: n above 1,023 or r above n; room: class not 3 to 12
    Shape = 3,
    /// allocate: no untaken block in the class and no pool segment
    NoRoom = 4,
    /// the handle asked about isn't a taken block
    NoBlock = 5,
    /// reference field not below r; plain field not below n - r
    NoField = 6,
    /// the value to store is neither none nor a taken block
    BadReference = 7,
    /// a root is neither none nor a taken block
    BadRoot = 8,
    /// the work list is shorter than the number of taken blocks
    ShortList = 9,
}

impl std::fmt::Display for Refusal {
    fn fmt(&self, f: &mut std::fmt::Formatter) -> std::fmt::Result {
        write!(f, "refused {}", *self as u32)
    }
}

impl std::error::Error for Refusal {}

fn granted<T>(number: u32, value: T) -> Result<T, Refusal> {
    Err(match number {
        0 => return Ok(value),
        1 => Refusal::Size,
        2 => Refusal::Unsound,
        3 => Refusal::Shape,
        4 => Refusal::NoRoom,
        5 => Refusal::NoBlock,
        6 => Refusal::NoField,
        7 => Refusal::BadReference,
        8 => Refusal::BadRoot,
        9 => Refusal::ShortList,
        _ => unreachable!("the library gives refusals 1 to 9"),
    })
}

/// An arena that is lent. What it holds may be anything: a call on an arena that isn't sound is refused.
#[derive(Debug)]
pub struct Store<'a> {
    words: &'a mut [u32],
}

impl<'a> Store<'a> {
    /// An empty drawing in these words, whatever they held.
    pub fn make(words: &'a mut [u32], segments: u32) -> Result<Store<'a>, Refusal> {
        let number = unsafe { face::ds_make(words.as_mut_ptr(), words.len(), segments) };
        granted(number, Store { words })
    }

    /// The drawing that these words hold.
    pub fn open(words: &'a mut [u32]) -> Store<'a> {
        Store { words }
    }

    /// All words of the arena, to keep or to send.
    pub fn words(&self) -> &[u32] {
        self.words
    }

    pub fn allocate(&mut self, n: u32, r: u32, tag: u8) -> Result<Handle, Refusal> {
        let mut h = 0;
        let number = unsafe { face::ds_allocate(self.words.as_mut_ptr(), self.words.len(), n, r, tag, &mut h) };
        granted(number, Handle(h))
    }

    pub fn standing(&self, h: Handle) -> Result<Standing, Refusal> {
        let (mut standing, mut n, mut r, mut tag) = (0, 0, 0, 0);
        let number = unsafe { face::ds_standing(self.words.as_ptr(), self.words.len(), h.0, &mut standing, &mut n, &mut r, &mut tag) };
        granted(number, match standing {
            0 => Standing::None,
            1 => Standing::Outside,
            2 => Standing::Free,
            _ => Standing::Taken(Shape { n, r, tag: tag as u8 }),
        })
    }

    pub fn shape(&self, h: Handle) -> Result<Shape, Refusal> {
        let (mut n, mut r, mut tag) = (0, 0, 0);
        let number = unsafe { face::ds_shape(self.words.as_ptr(), self.words.len(), h.0, &mut n, &mut r, &mut tag) };
        granted(number, Shape { n, r, tag: tag as u8 })
    }

    pub fn read_reference(&self, h: Handle, field: u32) -> Result<Handle, Refusal> {
        let mut v = 0;
        let number = unsafe { face::ds_read_reference(self.words.as_ptr(), self.words.len(), h.0, field, &mut v) };
        granted(number, Handle(v))
    }

    pub fn write_reference(&mut self, h: Handle, field: u32, value: Handle) -> Result<(), Refusal> {
        let number = unsafe { face::ds_write_reference(self.words.as_mut_ptr(), self.words.len(), h.0, field, value.0) };
        granted(number, ())
    }

    pub fn read_plain(&self, h: Handle, field: u32) -> Result<u32, Refusal> {
        let mut v = 0;
        let number = unsafe { face::ds_read_plain(self.words.as_ptr(), self.words.len(), h.0, field, &mut v) };
        granted(number, v)
    }

    pub fn write_plain(&mut self, h: Handle, field: u32, value: u32) -> Result<(), Refusal> {
        let number = unsafe { face::ds_write_plain(self.words.as_mut_ptr(), self.words.len(), h.0, field, value) };
        granted(number, ())
    }

    /// The plain words of a block, where they stand in the arena.
    pub fn plain_words(&self, h: Handle) -> Result<&[u32], Refusal> {
        let (mut offset, mut count) = (0, 0);
        let number = unsafe { face::ds_plain_words(self.words.as_ptr(), self.words.len(), h.0, &mut offset, &mut count) };
        granted(number, &self.words[offset..offset + count])
    }

    /// The number of untaken blocks in the segments of a class.
    pub fn room(&self, class: u32) -> Result<u32, Refusal> {
        let mut room = 0;
        let number = unsafe { face::ds_room(self.words.as_ptr(), self.words.len(), class, &mut room) };
        granted(number, room)
    }

    /// Frees what no root reaches. Gives the blocks that are reached, in drawing order: the front of the work list.
    pub fn collect<'b>(&mut self, roots: &[Handle], work: &'b mut [Handle]) -> Result<&'b [Handle], Refusal> {
        let mut count = 0;
        // a handle is laid out as its number
        let number = unsafe {
            face::ds_collect(self.words.as_mut_ptr(), self.words.len(), roots.as_ptr().cast(), roots.len(), work.as_mut_ptr().cast(), work.len(), &mut count)
        };
        granted(number, &work[..count as usize])
    }
}
