//! The proved leaves of `crates/exported` and the acceptance check of `crates/zt`, as safe functions.

use second::generate::{PlannedSet, RowSet};

pub mod beside;
pub mod tally;

/// What `skip` adds to the number of a refusal.
const FAULT: usize = 1 << 63;

/// Declared as `crates/exported/src/lib.rt` has them: a slice is a pointer and its length.
mod exported {
    extern "C" {
        pub fn leaf_skip(s: *const u8, length: usize, left: u64) -> usize;
        pub fn leaf_same(a: *const u8, a_length: usize, b: *const u8, b_length: usize) -> bool;
        pub fn leaf_order(a: *const u8, a_length: usize, b: *const u8, b_length: usize) -> usize;
        pub fn leaf_no_twice(
            m: *const u8,
            m_length: usize,
            left: *const usize,
            left_length: usize,
            size: *const usize,
            size_length: usize,
            n: usize,
            ix: *mut u16,
            ix_length: usize,
        ) -> bool;
        pub fn leaf_type_fits(k: *const u8, length: usize, code: u64) -> bool;
        pub fn leaf_dense_length(n: u64, shape: *const u64, rank: usize, unit: u64) -> bool;
        pub fn leaf_judge(
            code: u64,
            shape: *const u64,
            rank: usize,
            parts: *const u64,
            parts_length: usize,
        ) -> super::Ruling;
        pub fn leaf_float(out: *mut u8, room: usize, bits: u32) -> usize;
    }
}

/// A refusal's number and its component; 0 and 0 for none.
#[repr(C)]
#[derive(Debug, PartialEq, Eq)]
pub struct Ruling {
    pub number: u64,
    pub component: usize,
}

/// 0, and where the manifest starts and its size; or a refusal's number, 0 and 0.
#[repr(C)]
#[derive(Debug, PartialEq, Eq)]
pub struct Place {
    pub number: u64,
    pub start: usize,
    pub size: usize,
}

/// A refusal's number, its object and its component; three zeros for an accepted file.
#[repr(C)]
#[derive(Debug, PartialEq, Eq)]
pub struct Verdict {
    pub number: u64,
    pub object: u64,
    pub component: u64,
}

/// Leaves of one text, and what the box calls on a file, as safe functions.
macro_rules! of_text {
    ($($name:ident: $leaf:ident -> $answer:ty;)*) => {$(
        pub fn $name(text: &[u8]) -> $answer {
            extern "C" {
                fn $leaf(text: *const u8, length: usize) -> $answer;
            }
            // SAFETY: the pointer and the length are a slice's.
            unsafe { $leaf(text.as_ptr(), text.len()) }
        }
    )*};
}

of_text! {
    box_accept: zt_accept -> u64;
    utf8: leaf_utf8 -> bool;
    version_shape: leaf_version_shape -> bool;
    major_one: leaf_major_one -> bool;
    is_magic: leaf_is_magic -> bool;
    is_raw: leaf_is_raw -> bool;
    ratio_of: leaf_ratio_of -> u64;
    format_code: leaf_format_code -> u64;
    role_code: leaf_role_code -> u64;
}

/// Leaves of a layout's number and one text, and what the box calls on a file of a layout, as safe functions.
macro_rules! of_layout_and_text {
    ($($name:ident: $leaf:ident -> $answer:ty;)*) => {$(
        pub fn $name(layout: u64, text: &[u8]) -> $answer {
            extern "C" {
                fn $leaf(layout: u64, text: *const u8, length: usize) -> $answer;
            }
            // SAFETY: the pointer and the length are a slice's.
            unsafe { $leaf(layout, text.as_ptr(), text.len()) }
        }
    )*};
}

of_layout_and_text! {
    box_accept_as: zt_accept_as -> u64;
    root_key: leaf_root_key -> usize;
    object_key: leaf_object_key -> usize;
    component_key: leaf_component_key -> usize;
    dtype_code: leaf_dtype_code -> u64;
    frame: leaf_frame -> Place;
    accept_as: leaf_accept -> Verdict;
}

/// Leaves of numbers, as safe functions.
macro_rules! of_numbers {
    ($($name:ident: $leaf:ident($($number:ident),*) -> $answer:ty;)*) => {$(
        pub fn $name($($number: u64),*) -> $answer {
            extern "C" {
                fn $leaf($($number: u64),*) -> $answer;
            }
            // SAFETY: numbers alone.
            unsafe { $leaf($($number),*) }
        }
    )*};
}

of_numbers! {
    width_of: leaf_width_of(code) -> u64;
    is_product: leaf_is_product(n, a, b) -> bool;
    is_whole: leaf_is_whole(n, unit) -> bool;
    count_of: leaf_count_of(n, unit) -> u64;
    pointer_length: leaf_pointer_length(n, rows) -> bool;
    coordinate_length: leaf_coordinate_length(n, rank, count) -> bool;
    place: leaf_place(start, offset, length) -> u64;
}

pub fn type_fits(logical: &[u8], code: u64) -> bool {
    // SAFETY: the pointer and the length are a slice's.
    unsafe { exported::leaf_type_fits(logical.as_ptr(), logical.len(), code) }
}

pub fn dense_length(n: u64, shape: &[u64], unit: u64) -> bool {
    // SAFETY: the pointer and the length are a slice's.
    unsafe { exported::leaf_dense_length(n, shape.as_ptr(), shape.len(), unit) }
}

/// A part is four numbers: the role's code, bytes of one element, 1 for plain u64, length.
pub fn judge(format: u64, shape: &[u64], parts: &[[u64; 4]]) -> Ruling {
    let parts = parts.as_flattened();
    // SAFETY: each pointer and length are a slice's.
    unsafe {
        exported::leaf_judge(
            format,
            shape.as_ptr(),
            shape.len(),
            parts.as_ptr(),
            parts.len(),
        )
    }
}

/// The text of the f32 with these bits.
pub fn float(bits: u32) -> String {
    let mut out = [0; 24];
    // SAFETY: the pointer and the length are an array's.
    let length = unsafe { exported::leaf_float(out.as_mut_ptr(), out.len(), bits) };
    String::from_utf8_lossy(&out[..length]).into_owned()
}

/// What the C library prints of it.
pub fn printed(bits: u32) -> String {
    extern "C" {
        fn snprintf(out: *mut u8, room: usize, format: *const u8, ...) -> i32;
    }
    let mut out = [0; 24];
    // SAFETY: room for 23 bytes and a zero, and one double for the one that the format asks for.
    let length = unsafe { snprintf(out.as_mut_ptr(), out.len(), c"%.8e".as_ptr().cast(), f64::from(f32::from_bits(bits))) };
    String::from_utf8_lossy(&out[..length as usize]).into_owned()
}

/// What a reading answers: the verdict, both counts, the manifest's start, and the root attributes' place and length.
#[repr(C)]
#[derive(Debug, PartialEq, Eq)]
pub struct Answer {
    pub number: u64,
    pub object: u64,
    pub component: u64,
    pub objects: u64,
    pub components: u64,
    pub start: u64,
    pub place: u64,
    pub size: u64,
}

/// 0, and where a component lies; or INDEX, 0 and 0.
#[repr(C)]
#[derive(Debug, PartialEq, Eq)]
pub struct Extent {
    pub number: u64,
    pub offset: u64,
    pub length: u64,
}

/// 0 and what a component's numbers show; or INDEX and zeros.
#[repr(C)]
#[derive(Debug, PartialEq, Eq)]
pub struct Found {
    pub number: u64,
    pub finding: u64,
    pub smallest: u64,
    pub largest: u64,
    pub nans: u64,
}

/// The verdict, and how many bytes are the frame's, the manifest's, in components and in none.
#[repr(C)]
#[derive(Debug, PartialEq, Eq)]
pub struct Bytes {
    pub number: u64,
    pub object: u64,
    pub component: u64,
    pub frame: u64,
    pub manifest: u64,
    pub inside: u64,
    pub between: u64,
}

/// The verdict, or ROOM, and the panel's text's length.
#[repr(C)]
#[derive(Debug, PartialEq, Eq)]
pub struct Panelled {
    pub number: u64,
    pub object: u64,
    pub component: u64,
    pub length: u64,
}

/// 0 and a listing's or a sentence's length; or INDEX or ROOM, and 0.
#[repr(C)]
#[derive(Debug, PartialEq, Eq)]
pub struct Listed {
    pub number: u64,
    pub length: u64,
}

/// Where an engine's rows stand, and what was answered when they were loaded; zeros if nothing is loaded, INDEX and zeros on refusal.
#[repr(C)]
#[derive(Debug, PartialEq, Eq)]
pub struct Held {
    pub number: u64,
    pub place: u64,
    pub numbers: u64,
    pub objects: u64,
    pub components: u64,
    pub start: u64,
    pub attributes_place: u64,
    pub attributes_length: u64,
}

/// What writing answers: the refusal with its indices, or the file's length.
#[repr(C)]
#[derive(Debug, PartialEq, Eq)]
pub struct Written {
    pub number: u64,
    pub object: u64,
    pub component: u64,
    pub length: u64,
}

/// What comparing two files answers: a refusal with its file, or how many entries.
#[repr(C)]
#[derive(Debug, PartialEq, Eq)]
pub struct Changes {
    pub number: u64,
    pub file: u64,
    pub object: u64,
    pub component: u64,
    pub entries: u64,
}

/// What merging answers: a refusal and which file it is about, or the merged file's length.
#[repr(C)]
#[derive(Debug, PartialEq, Eq)]
pub struct Merged {
    pub number: u64,
    pub file: u64,
    pub object: u64,
    pub component: u64,
    pub length: u64,
}

/// What rescuing answers: a refusal, or how many objects are kept and dropped, and the rescued file's length.
#[repr(C)]
#[derive(Debug, PartialEq, Eq)]
pub struct Rescued {
    pub number: u64,
    pub object: u64,
    pub component: u64,
    pub kept: u64,
    pub dropped: u64,
    pub length: u64,
}

/// What explaining answers: the reading's refusal, the names that it belongs to, the span at fault, and with ROOM how many numbers are needed.
#[repr(C)]
#[derive(Debug, PartialEq, Eq)]
pub struct Explained {
    pub number: u64,
    pub object: u64,
    pub component: u64,
    pub object_name: u64,
    pub object_name_length: u64,
    pub component_name: u64,
    pub component_name_length: u64,
    pub place: u64,
    pub length: u64,
    pub room: u64,
}

/// Declared as `include/zt.h` has them.
mod zt {
    extern "C" {
        pub fn zt_explain(layout: u64, file: *const u8, length: usize, room: u64) -> super::Explained;
        pub fn zt_sentence(
            layout: u64,
            file: *const u8,
            length: usize,
            room: u64,
            text: *mut u8,
            text_room: usize,
        ) -> super::Listed;
        pub fn zt_rescue(
            layout: u64,
            file: *const u8,
            length: usize,
            rows: *mut u64,
            rows_room: usize,
            list: *mut u64,
            list_room: usize,
            out: *mut u8,
            out_room: usize,
        ) -> super::Rescued;
        pub fn zt_merge(
            first_layout: u64,
            first: *const u8,
            first_length: usize,
            second_layout: u64,
            second: *const u8,
            second_length: usize,
            rows: *mut u64,
            rows_room: usize,
            out: *mut u8,
            out_room: usize,
        ) -> super::Merged;
        pub fn zt_diff(
            first_layout: u64,
            first: *const u8,
            first_length: usize,
            second_layout: u64,
            second: *const u8,
            second_length: usize,
            work: *mut u64,
            work_room: usize,
            list: *mut u64,
            list_room: usize,
        ) -> super::Changes;
        pub fn zt_read(file: *const u8, length: usize, table: *mut u64, room: usize) -> super::Answer;
        pub fn zt_read_as(layout: u64, file: *const u8, length: usize, table: *mut u64, room: usize) -> super::Answer;
        pub fn zt_account(layout: u64, file: *const u8, length: usize, work: *mut u64, room: usize) -> super::Bytes;
        pub fn zt_panel(
            layout: u64,
            file: *const u8,
            length: usize,
            work: *mut u64,
            room: usize,
            text: *mut u8,
            text_room: usize,
        ) -> super::Panelled;
        pub fn zt_view(
            file: *const u8,
            length: usize,
            table: *const u64,
            room: usize,
            objects: u64,
            components: u64,
            index: u64,
        ) -> super::Extent;
        pub fn zt_find(
            file: *const u8,
            length: usize,
            table: *const u64,
            room: usize,
            objects: u64,
            components: u64,
            index: u64,
        ) -> super::Found;
        pub fn zt_list(
            file: *const u8,
            length: usize,
            table: *const u64,
            room: usize,
            objects: u64,
            components: u64,
            text: *mut u8,
            text_room: usize,
        ) -> super::Listed;
        pub fn zt_write(
            rows: *const u64,
            numbers: usize,
            objects: u64,
            components: u64,
            attributes_place: u64,
            attributes_length: u64,
            buffer: *const u8,
            buffer_length: usize,
            out: *mut u8,
            out_room: usize,
        ) -> super::Written;
        pub fn zt_write_planned(
            rows: *const u64,
            numbers: usize,
            objects: u64,
            components: u64,
            attributes_place: u64,
            attributes_length: u64,
            buffer: *const u8,
            buffer_length: usize,
            plan: *const u64,
            planned: usize,
            ceiling: u64,
            out: *mut u8,
            out_room: usize,
        ) -> super::Written;
        pub fn zt_load(
            shared: *mut u64,
            numbers: usize,
            engine: u64,
            layout: u64,
            file: *const u8,
            length: usize,
        ) -> super::Answer;
        pub fn zt_drop(shared: *mut u64, numbers: usize, engine: u64) -> u64;
        pub fn zt_holds(shared: *const u64, numbers: usize, engine: u64) -> super::Held;
        pub fn zt_engine_view(
            shared: *const u64,
            numbers: usize,
            engine: u64,
            file: *const u8,
            length: usize,
            index: u64,
        ) -> super::Extent;
        pub fn zt_engine_list(
            shared: *const u64,
            numbers: usize,
            engine: u64,
            file: *const u8,
            length: usize,
            text: *mut u8,
            text_room: usize,
        ) -> super::Listed;
    }
}

pub fn read(file: &[u8], table: &mut [u64]) -> Answer {
    // SAFETY: each pointer and length are a slice's, and the slices don't overlap.
    unsafe { zt::zt_read(file.as_ptr(), file.len(), table.as_mut_ptr(), table.len()) }
}

pub fn read_as(layout: u64, file: &[u8], table: &mut [u64]) -> Answer {
    // SAFETY: each pointer and length are a slice's, and the slices don't overlap.
    unsafe { zt::zt_read_as(layout, file.as_ptr(), file.len(), table.as_mut_ptr(), table.len()) }
}

pub fn account(layout: u64, file: &[u8], work: &mut [u64]) -> Bytes {
    // SAFETY: each pointer and length are a slice's, and the slices don't overlap.
    unsafe { zt::zt_account(layout, file.as_ptr(), file.len(), work.as_mut_ptr(), work.len()) }
}

pub fn panel(layout: u64, file: &[u8], work: &mut [u64], text: &mut [u8]) -> Panelled {
    // SAFETY: each pointer and length are a slice's, and the slices don't overlap.
    unsafe {
        zt::zt_panel(
            layout,
            file.as_ptr(),
            file.len(),
            work.as_mut_ptr(),
            work.len(),
            text.as_mut_ptr(),
            text.len(),
        )
    }
}

pub fn diff(
    first_layout: u64,
    first: &[u8],
    second_layout: u64,
    second: &[u8],
    work: &mut [u64],
    list: &mut [u64],
) -> Changes {
    // SAFETY: each pointer and length are a slice's, and the slices that are written overlap no other.
    unsafe {
        zt::zt_diff(
            first_layout,
            first.as_ptr(),
            first.len(),
            second_layout,
            second.as_ptr(),
            second.len(),
            work.as_mut_ptr(),
            work.len(),
            list.as_mut_ptr(),
            list.len(),
        )
    }
}

pub fn view(file: &[u8], table: &[u64], objects: u64, components: u64, index: u64) -> Extent {
    // SAFETY: each pointer and length are a slice's.
    unsafe {
        zt::zt_view(
            file.as_ptr(),
            file.len(),
            table.as_ptr(),
            table.len(),
            objects,
            components,
            index,
        )
    }
}

pub fn find(file: &[u8], table: &[u64], objects: u64, components: u64, index: u64) -> Found {
    // SAFETY: each pointer and length are a slice's.
    unsafe {
        zt::zt_find(
            file.as_ptr(),
            file.len(),
            table.as_ptr(),
            table.len(),
            objects,
            components,
            index,
        )
    }
}

pub fn list(file: &[u8], table: &[u64], objects: u64, components: u64, text: &mut [u8]) -> Listed {
    // SAFETY: each pointer and length are a slice's, and the lent text overlaps neither.
    unsafe {
        zt::zt_list(
            file.as_ptr(),
            file.len(),
            table.as_ptr(),
            table.len(),
            objects,
            components,
            text.as_mut_ptr(),
            text.len(),
        )
    }
}

pub fn write(set: &RowSet, out: &mut [u8]) -> Written {
    // SAFETY: each pointer and length are a slice's, and the lent output overlaps neither rows nor buffer.
    unsafe {
        zt::zt_write(
            set.rows.as_ptr(),
            set.rows.len(),
            set.objects,
            set.components,
            set.attributes_place,
            set.attributes_length,
            set.buffer.as_ptr(),
            set.buffer.len(),
            out.as_mut_ptr(),
            out.len(),
        )
    }
}

pub fn write_planned(asked: &PlannedSet, out: &mut [u8]) -> Written {
    let set = &asked.set;
    // SAFETY: each pointer and length are a slice's, and the lent output overlaps neither rows nor buffer nor plan.
    unsafe {
        zt::zt_write_planned(
            set.rows.as_ptr(),
            set.rows.len(),
            set.objects,
            set.components,
            set.attributes_place,
            set.attributes_length,
            set.buffer.as_ptr(),
            set.buffer.len(),
            asked.plan.as_ptr(),
            asked.plan.len(),
            asked.ceiling,
            out.as_mut_ptr(),
            out.len(),
        )
    }
}

/// Two files, each of its layout, into one.
pub fn merge(one: u64, first: &[u8], two: u64, second: &[u8], rows: &mut [u64], out: &mut [u8]) -> Merged {
    // SAFETY: each pointer and length are a slice's, and the slices don't overlap.
    unsafe {
        zt::zt_merge(
            one,
            first.as_ptr(),
            first.len(),
            two,
            second.as_ptr(),
            second.len(),
            rows.as_mut_ptr(),
            rows.len(),
            out.as_mut_ptr(),
            out.len(),
        )
    }
}

/// What is sound of a file of a layout, into another.
pub fn rescue(layout: u64, file: &[u8], rows: &mut [u64], list: &mut [u64], out: &mut [u8]) -> Rescued {
    // SAFETY: each pointer and length are a slice's, and the slices don't overlap.
    unsafe {
        zt::zt_rescue(
            layout,
            file.as_ptr(),
            file.len(),
            rows.as_mut_ptr(),
            rows.len(),
            list.as_mut_ptr(),
            list.len(),
            out.as_mut_ptr(),
            out.len(),
        )
    }
}

/// Why a file of a layout is refused, for a table of so many numbers.
pub fn explain(layout: u64, file: &[u8], room: u64) -> Explained {
    // SAFETY: the pointer and the length are a slice's.
    unsafe { zt::zt_explain(layout, file.as_ptr(), file.len(), room) }
}

/// The same as one line of text.
pub fn sentence(layout: u64, file: &[u8], room: u64, text: &mut [u8]) -> Listed {
    // SAFETY: each pointer and length are a slice's, and the slices don't overlap.
    unsafe { zt::zt_sentence(layout, file.as_ptr(), file.len(), room, text.as_mut_ptr(), text.len()) }
}

/// The calls of two engines that share their numbers.
pub fn load(shared: &mut [u64], engine: u64, layout: u64, file: &[u8]) -> Answer {
    // SAFETY: each pointer and length are a slice's, and the slices don't overlap.
    unsafe { zt::zt_load(shared.as_mut_ptr(), shared.len(), engine, layout, file.as_ptr(), file.len()) }
}

pub fn drop_rows(shared: &mut [u64], engine: u64) -> u64 {
    // SAFETY: the pointer and the length are a slice's.
    unsafe { zt::zt_drop(shared.as_mut_ptr(), shared.len(), engine) }
}

pub fn holds(shared: &[u64], engine: u64) -> Held {
    // SAFETY: the pointer and the length are a slice's.
    unsafe { zt::zt_holds(shared.as_ptr(), shared.len(), engine) }
}

pub fn engine_view(shared: &[u64], engine: u64, file: &[u8], index: u64) -> Extent {
    // SAFETY: each pointer and length are a slice's.
    unsafe { zt::zt_engine_view(shared.as_ptr(), shared.len(), engine, file.as_ptr(), file.len(), index) }
}

pub fn engine_list(shared: &[u64], engine: u64, file: &[u8], text: &mut [u8]) -> Listed {
    // SAFETY: each pointer and length are a slice's, and the lent text overlaps neither.
    unsafe {
        zt::zt_engine_list(
            shared.as_ptr(),
            shared.len(),
            engine,
            file.as_ptr(),
            file.len(),
            text.as_mut_ptr(),
            text.len(),
        )
    }
}

/// How many bytes the item at the front takes, or 6 or 7.
pub fn skip(bytes: &[u8], levels: u32) -> Result<usize, u8> {
    // SAFETY: the pointer and the length are a slice's.
    let answer = unsafe { exported::leaf_skip(bytes.as_ptr(), bytes.len(), u64::from(levels)) };
    match answer.checked_sub(FAULT) {
        None => Ok(answer),
        Some(number) => Err(u8::try_from(number).unwrap()),
    }
}

pub fn same(a: &[u8], b: &[u8]) -> bool {
    // SAFETY: each pointer and length are a slice's.
    unsafe { exported::leaf_same(a.as_ptr(), a.len(), b.as_ptr(), b.len()) }
}

/// 1 if a stands before b, 2 if after, 0 if they are equal.
pub fn order(a: &[u8], b: &[u8]) -> usize {
    // SAFETY: each pointer and length are a slice's.
    unsafe { exported::leaf_order(a.as_ptr(), a.len(), b.as_ptr(), b.len()) }
}

/// No name stands twice among n: for each, the bytes left at its start and its length.
pub fn no_twice(bytes: &[u8], left: &[usize], size: &[usize], n: usize) -> bool {
    let mut work = vec![0u16; n];
    // SAFETY: each pointer and length are a slice's, and `work` is lent to this call alone.
    unsafe {
        exported::leaf_no_twice(
            bytes.as_ptr(),
            bytes.len(),
            left.as_ptr(),
            left.len(),
            size.as_ptr(),
            size.len(),
            n,
            work.as_mut_ptr(),
            work.len(),
        )
    }
}
