//! The twenty-four calls as C sees them.

/// The refusal and its place; the labels of the numbers that are given, the first
/// one's in the lowest byte; the numbers.
#[repr(C)]
#[derive(Clone, Copy, Debug, Default, PartialEq, Eq)]
pub struct Answer {
    pub refusal: u32,
    pub given: u32,
    pub place: u64,
    pub first: i64,
    pub second: i64,
    pub third: i64,
}

#[repr(C)]
#[derive(Clone, Copy, Debug, PartialEq, Eq)]
pub struct Performed {
    pub calls: u64,
    pub taken: u64,
    pub written: u64,
}

/// A table of flags, row after row.
#[repr(C)]
#[derive(Clone, Copy, Debug, PartialEq, Eq)]
pub struct Flags {
    pub marks: [[u8; 10]; 14],
}

/// What a step of a reader gives: the end, a plain symbol or an original one, and its
/// byte, which is 0 at the end.
#[repr(C)]
#[derive(Clone, Copy, Debug, PartialEq, Eq)]
pub struct Symbol {
    pub kind: u32,
    pub byte: u32,
}

pub const END: u32 = 0;
pub const PLAIN: u32 = 1;
pub const ORIGINAL: u32 = 2;

/// A reader: its place and its end in nibbles, the spaces still to come, the refusal and
/// its place.
pub type Reader = [u64; 5];

type Numbered = unsafe extern "C" fn(*const u8, usize, usize, *const Flags) -> Answer;
type NumberedEdit = unsafe extern "C" fn(*mut u8, usize, usize, *const Flags) -> Answer;

/// A library: pointers and lengths, in the order of its header.
#[derive(Clone, Copy)]
pub struct Library {
    pub judge: unsafe extern "C" fn(*const u8, usize, *const Flags) -> Answer,
    pub fresh: unsafe extern "C" fn(i64, i64, i64, i64, i64, *mut u8, usize) -> Answer,
    pub unpack: unsafe extern "C" fn(
        *const u8,
        usize,
        *mut i64,
        usize,
        *mut u8,
        usize,
        *mut u64,
        *const Flags,
    ) -> Answer,
    pub pack: unsafe extern "C" fn(
        *const i64,
        usize,
        u64,
        u16,
        *const u8,
        usize,
        *mut u8,
        usize,
        *const Flags,
    ) -> Answer,
    pub read_field: Numbered,
    pub set_field: unsafe extern "C" fn(*mut u8, usize, usize, i64, *const Flags) -> Answer,
    pub clear_field: NumberedEdit,
    pub read_flag: Numbered,
    pub set_flag: unsafe extern "C" fn(*mut u8, usize, usize, usize, *const Flags) -> Answer,
    pub clear_flag: NumberedEdit,
    pub put: unsafe extern "C" fn(*mut u8, usize, usize, *const u8, usize, *const Flags) -> Answer,
    pub fetch:
        unsafe extern "C" fn(*const u8, usize, usize, *mut u8, usize, *const Flags) -> Answer,
    pub drop: NumberedEdit,
    pub put_text: unsafe extern "C" fn(
        *mut u8,
        usize,
        *const u8,
        usize,
        *const u8,
        usize,
        *const Flags,
    ) -> Answer,
    pub fetch_text: unsafe extern "C" fn(
        *const u8,
        usize,
        *mut u8,
        usize,
        *mut u8,
        usize,
        *const Flags,
    ) -> Answer,
    pub clear_with_indicators: NumberedEdit,
    pub find_indicators:
        unsafe extern "C" fn(*const u8, usize, *mut u8, usize, *const Flags) -> Answer,
    pub open_text: unsafe extern "C" fn(*const u8, usize, *mut Reader, *const Flags) -> Answer,
    pub next_symbol: unsafe extern "C" fn(*const u8, usize, *mut Reader) -> Symbol,
    pub costliest_text: unsafe extern "C" fn(usize, *mut u8, usize, *mut u8, usize) -> Answer,
    pub replay: unsafe extern "C" fn(
        *mut u8,
        usize,
        *const u8,
        usize,
        *mut u8,
        usize,
        *const Flags,
    ) -> Performed,
    /// The pointer is to 256 entries.
    pub character_table: unsafe extern "C" fn(*mut u16),
    pub all_flags: unsafe extern "C" fn(*mut Flags),
    pub load_flags: unsafe extern "C" fn(*const u8, usize, *mut Flags) -> Answer,
}
