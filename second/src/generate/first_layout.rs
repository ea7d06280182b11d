//! Plans made to fit layout 1.0, and the fields of its maps: one dtype for a tensor, no types, no attributes of its own.

use super::file::{field_pairs, push_optional};
use super::plan::{ComponentPlan, ObjectPlan, Plan};
use super::rng::Rng;
use crate::compose::Pairs;
use crate::encode::Item;
use crate::layout::Layout;
use crate::types::{self, Format, DTYPES, U64};

/// Gives each object's components the object's dtype (u64 for index roles) and lengths that are right for it.
pub fn fit(rng: &mut Rng, plan: &mut Plan) {
    for object in &mut plan.objects {
        let dtype = rng.index(DTYPES.len());
        let roles = Format::of(&object.format).roles();
        for component in &mut object.components {
            let index_role = roles
                .iter()
                .any(|role| role.as_bytes() == component.name && types::is_index_role(role));
            component.dtype = if index_role { U64 } else { dtype };
            component.logical = None;
        }
        fit_lengths(object, DTYPES[dtype].1);
    }
}

fn fit_lengths(object: &mut ObjectPlan, width: u64) {
    let rank = object.shape.len() as u64;
    let length_of = |object: &ObjectPlan, role: &str| {
        let found = object.components.iter().find(|c| c.name == role.as_bytes());
        found.map_or(0, |component| component.length)
    };
    let (role, count) = match Format::of(&object.format) {
        Format::Dense => ("data", types::product(&object.shape) as u64),
        Format::SparseCsr => ("values", length_of(object, "indices") / 8),
        Format::SparseCoo => ("values", length_of(object, "coords") / (8 * rank.max(1))),
        _ => return,
    };
    let found = object
        .components
        .iter_mut()
        .find(|c| c.name == role.as_bytes());
    if let Some(component) = found {
        component.length = count * width;
    }
}

/// The tensor's dtype is that of a component which is no index.
pub fn tensor_pairs(object: &ObjectPlan, components: Pairs) -> Pairs {
    let own = object.components.iter().map(|component| component.dtype);
    let dtype = own.clone().find(|&code| code != U64).or(own.clone().next());
    let shape = object.shape.iter().map(|&n| Item::Unsigned(n)).collect();
    field_pairs([
        (
            "dtype",
            Item::text(Layout::First.dtype_name(dtype.unwrap_or(0))),
        ),
        ("shape", Item::Array(shape)),
        ("format", Item::text(&object.format)),
        ("components", Item::Map(components)),
    ])
    .into_iter()
    .chain(unknown_attributes(object))
    .collect()
}

/// Attributes of a tensor are an unknown field.
fn unknown_attributes(object: &ObjectPlan) -> Pairs {
    let mut pairs = Pairs::new();
    push_optional(&mut pairs, "attributes", object.attributes.clone());
    pairs
}

/// A component's fields; a type, a dtype and an uncompressed length are unknown ones.
pub fn component_pairs(rng: &mut Rng, component: &ComponentPlan, offset: u64) -> Pairs {
    let mut pairs = field_pairs([
        ("offset", Item::Unsigned(offset)),
        ("length", Item::Unsigned(component.length)),
    ]);
    let encoding = rng.one_in(5).then(|| Item::text("raw"));
    push_optional(&mut pairs, "encoding", encoding);
    let digest = match &component.digest {
        Some(text) => Some(Item::text(text)),
        None => rng.one_in(8).then(Item::null),
    };
    push_optional(&mut pairs, "digest", digest);
    let logical = component.logical.as_ref().map(Item::text);
    push_optional(&mut pairs, "type", logical);
    if rng.one_in(8) {
        let name = *rng.pick(&["dtype", "type", "uncompressed_length"]);
        pairs.extend(field_pairs([(name, Item::text("f32"))]));
    }
    pairs
}
