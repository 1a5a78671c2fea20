//! Differences in what is read.

use crate::chance::Chance;
use crate::letters::of_length;
use crate::tree::{Element, Place, Tree};
use crate::unread::{one_of, write_element, Change};

/// A kind of difference, and how to make it in some parts.
type Difference = (&'static str, fn(&Tree, &Parts, &mut Chance) -> Option<Change>);

pub const READ: [Difference; 9] = [
    ("value-changed", |tree, parts, chance| change_value(tree, parts.values, chance)),
    ("value-widened", |tree, parts, chance| widen_value(tree, parts.values, chance)),
    ("element-put-into-leaf", |tree, _, chance| put_element(tree, chance)),
    ("leaf-repeated", |tree, _, chance| repeat(tree, is_leaf, chance)),
    ("leaf-taken-out", |tree, parts, chance| take_out(tree, parts.leaves, chance)),
    ("container-repeated", |tree, parts, chance| repeat(tree, parts.repeated, chance)),
    ("container-taken-out", |tree, parts, chance| take_out(tree, parts.containers, chance)),
    ("later-language-changed", |tree, _, chance| change_value(tree, is_later_language, chance)),
    ("later-info-taken-out", |tree, _, chance| take_out(tree, is_later, chance)),
];

/// Parts on which the answers of a call hang: leaves by their values, leaves and containers by
/// standing there, containers by standing there twice.
pub struct Parts {
    values: Fits,
    leaves: Fits,
    containers: Fits,
    repeated: Fits,
}

impl Parts {
    pub fn of(call: &str) -> Parts {
        match call {
            "header" => Parts {
                values: is_header_value,
                leaves: is_header_leaf,
                containers: is_header_container,
                repeated: is_code_or_area,
            },
            "text" => Parts {
                values: is_text_value,
                leaves: is_leaf,
                containers: is_inner,
                repeated: is_code_or_area,
            },
            "canadian" => Parts {
                values: is_canadian_value,
                leaves: is_leaf,
                containers: is_canadian_container,
                repeated: |_| false,
            },
            _ => {
                Parts { values: is_leaf, leaves: is_leaf, containers: is_inner, repeated: is_inner }
            }
        }
    }
}

const VALUES: [&str; 9] =
    ["", "x", "SAME", "es", "en-US", "Test", "Cancel", "024031", "2010-04-05T14:45:30-04:00"];

fn is_leaf(element: &Element) -> bool {
    element.place == Place::Leaf
}

/// An eventCode, a parameter, a geocode, a resource, an area or an info that is not a later one.
fn is_inner(element: &Element) -> bool {
    element.place.is_container() && !matches!(element.place, Place::Alert | Place::Later)
}

fn is_leaf_of(element: &Element, names: &[&str]) -> bool {
    is_leaf(element) && names.iter().any(|name| element.name.ends_with(name.as_bytes()))
}

fn is_code_or_area(element: &Element) -> bool {
    matches!(element.place, Place::Code | Place::Area)
}

/// A leaf whose value a header shows, or asks for more than that it is no fault.
fn is_header_value(element: &Element) -> bool {
    match element.parent {
        Place::Alert => is_leaf_of(element, &["sent", "status", "msgType", "scope"]),
        Place::Info => is_leaf_of(element, &["expires"]),
        Place::Code | Place::Parameter => is_leaf(element),
        _ => false,
    }
}

/// A leaf that a header cannot be without.
fn is_header_leaf(element: &Element) -> bool {
    match element.parent {
        Place::Alert => is_leaf(element),
        _ => is_header_value(element),
    }
}

fn is_header_container(element: &Element) -> bool {
    is_code_or_area(element) || element.place == Place::Info
}

/// The same of a text and its audio.
fn is_text_value(element: &Element) -> bool {
    match element.parent {
        Place::Info => is_leaf(element) && !is_leaf_of(element, &["language"]),
        Place::Resource => is_leaf(element),
        _ => is_header_value(element),
    }
}

/// The same of the Canadian mode.
fn is_canadian_value(element: &Element) -> bool {
    match element.parent {
        Place::Alert => is_leaf_of(element, &["status", "msgType", "scope"]),
        Place::Info => is_leaf_of(element, &["description", "instruction"]),
        Place::Parameter | Place::Resource => is_leaf(element),
        _ => false,
    }
}

fn is_canadian_container(element: &Element) -> bool {
    matches!(element.place, Place::Info | Place::Parameter | Place::Resource)
}

fn is_later(element: &Element) -> bool {
    element.place == Place::Later
}

fn is_later_language(element: &Element) -> bool {
    is_leaf(element) && element.parent == Place::Later
}

type Fits = fn(&Element) -> bool;

fn some<'t, 'm>(tree: &'t Tree<'m>, fits: Fits, chance: &mut Chance) -> Option<&'t Element<'m>> {
    one_of(tree.elements.iter().filter(|element| fits(element)), chance)
}

fn change_value(tree: &Tree, fits: Fits, chance: &mut Chance) -> Option<Change> {
    let leaf = some(tree, fits, chance)?;
    let value = chance.pick(&VALUES).as_bytes();
    Some((leaf.whole.clone(), write_element(leaf.name, leaf.attributes, value, chance)))
}

/// Puts a character of two bytes or more somewhere into a value.
fn widen_value(tree: &Tree, fits: Fits, chance: &mut Chance) -> Option<Change> {
    let leaves = tree.elements.iter().filter(|e| fits(e) && !e.spots.is_empty());
    let leaf = one_of(leaves, chance)?;
    let at = chance.pick(&leaf.spots);
    Some((at..at, of_length(2 + chance.below(3), chance).to_string().into_bytes()))
}

fn put_element(tree: &Tree, chance: &mut Chance) -> Option<Change> {
    let leaf = some(tree, |e| is_leaf(e) && !e.holds_element && !e.spots.is_empty(), chance)?;
    let at = chance.pick(&leaf.spots);
    Some((at..at, chance.pick(&["<x/>", "<q:a>b</q:a>", "<value>1</value>"]).into()))
}

fn repeat(tree: &Tree, fits: Fits, chance: &mut Chance) -> Option<Change> {
    let element = some(tree, fits, chance)?;
    let end = element.whole.end;
    Some((end..end, tree.message[element.whole.clone()].to_vec()))
}

fn take_out(tree: &Tree, fits: Fits, chance: &mut Chance) -> Option<Change> {
    Some((some(tree, fits, chance)?.whole.clone(), Vec::new()))
}
