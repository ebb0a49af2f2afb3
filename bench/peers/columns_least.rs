//! The least number of bytes that the format of columns allows, found by looking at all forms and widths.
use crate::{width_of, Form, Value, HEADER};
use std::collections::HashSet;

/// The least width of differences that add up to this one in so many steps, wrapping at 64 bits.
fn steps_width(steps: usize, difference: i128) -> usize {
    let reaches = |width: &usize| {
        let (down, up) = if *width == 0 { (0, 0) } else { (1i128 << (width - 1), (1i128 << (width - 1)) - 1) };
        let sums = -down * steps as i128..=up * steps as i128;
        (-64..=64).any(|turns| sums.contains(&(difference + (turns << 64))))
    };
    (0..=64).find(reaches).unwrap()
}

/// The least width of the delta form: between two cells that are there, the differences may be chosen.
fn least_delta_width(cells: &[Option<Value>]) -> usize {
    let mut least = 0;
    let mut before = None;
    for (i, cell) in cells.iter().enumerate() {
        if i % 64 == 0 {
            before = None;
        }
        let Some(Value::Int(integer)) = cell else { continue };
        if let Some((place, last)) = before {
            least = least.max(steps_width(i - place, i128::from(*integer) - i128::from(last)));
        }
        before = Some((i, *integer));
    }
    least
}

/// The least number of bytes that the format allows for these cells.
pub fn least(form: Form, cells: &[Option<Value>]) -> usize {
    let count = cells.len();
    let front = HEADER + if cells.iter().all(Option::is_some) { 0 } else { count.div_ceil(8) };
    let there = || cells.iter().flatten();
    if form == Form::Dictionary {
        let texts: HashSet<&str> =
            there().filter_map(|cell| if let Value::Text(text) = cell { Some(text.as_str()) } else { None }).collect();
        let width = width_of(&[texts.len().saturating_sub(1) as u64]) as usize;
        return front + (count * width).div_ceil(8) + 4 + texts.iter().map(|text| 4 + text.len()).sum::<usize>();
    }
    let integers = || there().filter_map(|cell| if let Value::Int(integer) = cell { Some(*integer) } else { None });
    let spread = integers().max().unwrap_or(0).abs_diff(integers().min().unwrap_or(0));
    let offset = (count * width_of(&[spread]) as usize).div_ceil(8) + 8;
    let delta = (count * least_delta_width(cells)).div_ceil(8) + 8 * count.div_ceil(64);
    front + offset.min(delta)
}
