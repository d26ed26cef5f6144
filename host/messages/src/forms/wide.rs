//! Layouts at random with lengths and limits that no Rust type here has.

use crate::random_tables::items;
use crate::rng::Rng;
use cartwhisker::{Kind, Layout, Type};

/// A layout whose values are neither too many items nor too long for a record.
pub fn layout(rng: &mut Rng) -> Layout {
    loop {
        let layout = any(rng);
        let last = layout.message().expect("at least one type");
        if items(&layout, last) <= 200 && layout.fixed_length(last).unwrap_or(0) < 10_000 {
            return layout;
        }
    }
}

fn any(rng: &mut Rng) -> Layout {
    let mut layout = Layout::new();
    let types = match rng.below(8) {
        0 => 64,
        _ => rng.between(1, 12) as u32,
    };
    for number in 0..types {
        let kind = match number {
            0 => rng.below(6),
            _ => rng.pick(&[0, 1, 2, 3, 4, 5, 6, 6, 7, 7, 8, 8, 9]),
        };
        let lower = |rng: &mut Rng| Type::from_number(rng.below(u64::from(number)) as u32);
        let count = |rng: &mut Rng, most: u64| match rng.below(12) {
            0 => most,
            _ => rng.between(1, 6),
        };
        layout.add(match kind {
            0 => Kind::Number(rng.pick(&[1, 2, 4, 8, 16, 32])),
            1 => Kind::Boolean,
            2 => Kind::FixedBytes(rng.between(1, 90) as u32),
            3 => Kind::FreeBytes(limit(rng)),
            4 => Kind::BitVector(rng.between(1, 600) as u32),
            5 => Kind::BitList(limit(rng)),
            6 => Kind::Container((0..count(rng, 64)).map(|_| lower(rng)).collect()),
            7 => {
                let option = |rng: &mut Rng| (!rng.one_in(4)).then(|| lower(rng));
                Kind::Union((0..count(rng, 128)).map(|_| option(rng)).collect())
            }
            8 => Kind::List(lower(rng), limit(rng)),
            _ => Kind::Vector(lower(rng), count(rng, 150) as u32),
        });
    }
    layout
}

/// Layouts whose values fill a record: many words, long bodies, more bits than a held bitfield has.
pub fn long() -> Vec<Layout> {
    let leaves = [
        Kind::FixedBytes(50_000),
        Kind::FreeBytes(u32::MAX),
        Kind::FreeBytes(30_000),
        Kind::BitVector(2_048),
        Kind::BitVector(2_049),
        Kind::BitVector(100_000),
        Kind::BitList(2_048),
        Kind::BitList(u32::MAX),
    ];
    let alone = leaves.map(|kind| {
        let mut layout = Layout::new();
        layout.add(kind);
        layout
    });
    // 64 times 64 items, each with a contents word.
    let many = [Kind::FreeBytes(3), Kind::BitList(9), Kind::Union(vec![None, None])].map(|kind| {
        let mut layout = Layout::new();
        let leaf = layout.add(kind);
        let row = layout.container([leaf; 64]);
        layout.container([row; 64]);
        layout
    });
    let lists = |inner: Kind, kinds: [fn(Type) -> Kind; 2]| {
        let mut layout = Layout::new();
        let mut last = layout.add(inner);
        for kind in kinds {
            last = layout.add(kind(last));
        }
        layout
    };
    let free = |element| Kind::List(element, u32::MAX);
    let rows = [
        // Many numbers, many elements with a word each, lists in lists, vectors of many offsets.
        lists(Kind::Number(1), [|element| Kind::Vector(element, 2), free]),
        lists(Kind::Number(8), [free, |element| Kind::Vector(element, 1)]),
        lists(Kind::FreeBytes(9), [free, |element| Kind::Vector(element, 1)]),
        lists(Kind::BitList(9), [|element| Kind::List(element, 9), free]),
        lists(Kind::Boolean, [free, |element| Kind::Vector(element, 3_000)]),
        lists(
            Kind::FreeBytes(5),
            [|element| Kind::Vector(element, 65), |element| Kind::List(element, 40)],
        ),
    ];
    alone.into_iter().chain(many).chain(rows).collect()
}

fn limit(rng: &mut Rng) -> u32 {
    match rng.below(4) {
        0 => u32::MAX,
        1 => rng.between(0, 10) as u32,
        _ => rng.between(0, 400) as u32,
    }
}
