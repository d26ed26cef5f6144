//! Layouts that cost as much as they can, and memory for long messages: for the tests of hostile tables and for their benchmark.

use cartwhisker::{Layout, Type};

/// The most types, fields and options of a table, and the greatest word.
pub const TYPES: usize = 64;
pub const FIELDS: usize = 64;
pub const OPTIONS: usize = 128;
pub const GREATEST: u32 = u32::MAX;

/// A layout of one type.
pub fn one(add: impl FnOnce(&mut Layout) -> Type) -> Layout {
    let mut layout = Layout::new();
    add(&mut layout);
    layout
}

/// Types up to `types` in all, each a container of `fields` fields of the type below.
pub fn containers(mut layout: Layout, types: usize, fields: usize) -> Layout {
    while layout.kinds().len() < types {
        let below = layout.message().expect("a type to start from");
        layout.container(vec![below; fields]);
    }
    layout
}

/// Types up to `types` in all, each a union: the first half of the options have the type below as
/// their body, the others have none.
pub fn unions(mut layout: Layout, types: usize, options: usize) -> Layout {
    while layout.kinds().len() < types {
        let below = layout.message().expect("a type to start from");
        layout.union((0..options).map(|selector| (selector < options / 2).then_some(below)));
    }
    layout
}

/// Free bytes below containers of 64 fields: legal at every depth, as an offset takes 4 bytes
/// whatever it leads to.
pub fn legal(types: usize) -> Layout {
    containers(one(|layout| layout.free_bytes(GREATEST)), types, FIELDS)
}

/// So many zero bytes, which take no memory before they are touched; none where the machine has
/// not so many.
pub fn zeros(length: usize) -> Option<Vec<u8>> {
    let whole = std::alloc::Layout::array::<u8>(length).ok().filter(|whole| whole.size() > 0);
    let Some(whole) = whole else { return Some(Vec::new()) };
    // SAFETY: the layout has a length above 0. The memory is zeroed, so `length` bytes are there,
    // and a vector of bytes frees it with the very layout that it was allocated with.
    unsafe {
        let start = std::alloc::alloc_zeroed(whole);
        (!start.is_null()).then(|| Vec::from_raw_parts(start, length, length))
    }
}
