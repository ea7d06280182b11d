//! Every format with each of its roles in every state, in every order.

use super::BLOBS;
use crate::compose::{component, named, object, root, with, Pairs};
use crate::encode::Item;
use crate::layout::Layout;

/// For ranks 1 to 3.
pub fn roles() -> Vec<Vec<u8>> {
    roles_as(Layout::Current)
}

/// The same in a layout; a tensor's dtype is u64, so that all lengths are as right as in the other.
pub fn roles_as(layout: Layout) -> Vec<Vec<u8>> {
    let mut files = Vec::new();
    for rank in 1..=3 {
        let shape = vec![2; rank];
        let coordinates = 8 * rank as u64 * VALUES;
        let formats: [(&str, &[(&str, u64)]); 4] = [
            ("dense", &[("data", 8 << rank)]),
            (
                "sparse_csr",
                &[
                    ("values", 8 * VALUES),
                    ("indices", 8 * VALUES),
                    ("indptr", 24),
                ],
            ),
            (
                "sparse_coo",
                &[("values", 8 * VALUES), ("coords", coordinates)],
            ),
            (
                "quantized_group",
                &[("packed_weight", 8), ("scales", 8), ("zeros", 8)],
            ),
        ];
        for (format, roles) in formats {
            for states in all_states(roles.len()) {
                let parts = roles.iter().zip(states);
                let parts: Vec<_> = parts.filter_map(|(role, state)| state(*role)).collect();
                for order in orders(parts) {
                    let object = object(&shape, format, Item::Map(order));
                    files.push(layout.assemble(BLOBS, &holding(layout, object).shortest()));
                }
            }
        }
    }
    files
}

/// A manifest of one object.
fn holding(layout: Layout, object: Item) -> Item {
    match layout {
        Layout::Current => root(named([("w", object)])),
        Layout::First => {
            let tensor = with(object, "dtype", Item::text("uint64"));
            let tensors = named([("w", tensor)]);
            Item::map([("version", Item::text("1.0")), ("tensors", tensors)])
        }
    }
}

/// How many elements the values of a sparse object have.
const VALUES: u64 = 3;

/// What a role may be, of the length that is right for it: its pair, or nothing.
type State = fn((&str, u64)) -> Option<(Item, Item)>;

const STATES: [State; 7] = [
    |(role, length)| Some((Item::text(role), component("u64", 64, length))),
    |_| None,
    |(role, length)| Some((Item::text(role), component("i64", 64, length))),
    |(role, length)| Some((Item::text(role), component("u64", 64, length + 1))),
    |(role, length)| Some((Item::text(role), component("u64", 64, length + 8))),
    |(role, length)| typed(role, length, Item::text("")),
    |(role, length)| typed(role, length, Item::null()),
];

fn typed(role: &str, length: u64, logical: Item) -> Option<(Item, Item)> {
    let part = with(component("u64", 64, length), "type", logical);
    Some((Item::text(role), part))
}

/// Every choice of so many states.
fn all_states(count: usize) -> Vec<Vec<State>> {
    (0..count).fold(vec![Vec::new()], |lists, _| {
        let longer = |list: &Vec<State>| STATES.map(|state| [&list[..], &[state]].concat());
        lists.iter().flat_map(longer).collect()
    })
}

/// The pairs in every order, each time with a further role among them.
fn orders(pairs: Pairs) -> Vec<Pairs> {
    let further = (Item::text("bias"), component("u8", 64, 1));
    pairs.into_iter().fold(vec![vec![further]], |lists, pair| {
        let with_pair = |list: &Pairs| {
            let at = |at| {
                let mut list = list.clone();
                list.insert(at, pair.clone());
                list
            };
            (0..=list.len()).map(at).collect::<Vec<_>>()
        };
        lists.iter().flat_map(with_pair).collect()
    })
}
