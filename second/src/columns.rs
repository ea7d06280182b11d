//! A row's numbers by name, as documents 01 and 02 list them. A range takes two columns: its place, and after it its length.

/// How many numbers a row takes.
pub const OBJECT_ROW: usize = 16;
pub const COMPONENT_ROW: usize = 12;

/// Of both kinds of row.
pub const NAME: usize = 0;

/// Of an object's row.
pub const RANK: usize = 2;
pub const SHAPE: usize = 3;
pub const FORMAT: usize = 11;
pub const ATTRIBUTES: usize = 13;
pub const COUNT: usize = 15;

/// Of a component's row.
pub const DTYPE: usize = 2;
pub const TYPE: usize = 3;
pub const BLOB: usize = 5;
pub const DIGEST: usize = 7;
pub const OWNER: usize = 9;
/// The component's map in the manifest, the whole item (document 02, Request 12).
pub const ENTRY: usize = 10;

/// Numbers of the largest table: of 1,024 objects with 16 components each.
pub const MOST: usize = numbers(1024, 1024 * 16);

/// Numbers that the rows of so many objects and components take.
pub const fn numbers(objects: usize, components: usize) -> usize {
    OBJECT_ROW * objects + COMPONENT_ROW * components
}
