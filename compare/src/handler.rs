//! The terminal response handler (4.3, 7.1.8).

use crate::page::{Page, Unit};
use crate::tlv::Tlv;

/// What the handler does with a general result.
#[derive(Clone, Copy, PartialEq, Eq, Debug)]
pub enum Action<'a> {
    Next,
    End,
    Back,
    Retry,
    Branch(&'a [u8]),
}

/// The unit's modifiers stand after the page's, and the last match is taken.
pub fn action(page: &Page, unit: Unit, general_result: u8) -> Action<'_> {
    last_match(page, page.unit_modifiers(unit), general_result)
        .or_else(|| last_match(page, page.page_modifiers(), general_result))
        .unwrap_or_else(|| default_action(general_result))
}

fn last_match(
    page: &Page,
    modifiers: impl Iterator<Item = Tlv>,
    general_result: u8,
) -> Option<Action<'_>> {
    modifiers.filter_map(|modifier| matching_action(page, modifier, general_result)).last()
}

/// The modifier's action, if its range holds the general result.
fn matching_action(page: &Page, modifier: Tlv, general_result: u8) -> Option<Action<'_>> {
    let (_, range) = modifier.attributes(page.bytes())?;
    let [low, high] = [page.bytes()[range], page.bytes()[range + 1]];
    if !(low..=high).contains(&general_result) {
        return None;
    }
    let action = modifier.inner(page.bytes()).next()?;
    let (_, identifier) = action.attributes(page.bytes())?;
    match page.bytes()[identifier] {
        0x00 => Some(Action::Next),
        0x01 => Some(Action::End),
        0x02 => Some(Action::Back),
        0x03 => Some(Action::Retry),
        // A reserved ID is a logical error: nothing is modified (7.1.8).
        0x04..=0x1F => None,
        _ => {
            let reference = action.inner(page.bytes()).next()?;
            Some(Action::Branch(page.reference(reference)))
        }
    }
}

/// Table 4.1; where it lists several actions, the first one.
fn default_action(general_result: u8) -> Action<'static> {
    match general_result {
        0x00..=0x0F => Action::Next,
        0x11 => Action::Back,
        0x13 => Action::Retry,
        _ => Action::End,
    }
}
