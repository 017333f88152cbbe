//! Leaving out what a difference doesn't need.

use std::io;

/// Leaves out items while the rest still shows what is looked for: long stretches first, then one by one until none can go.
pub fn leave_out<T: Clone>(items: &mut Vec<T>, mut shows: impl FnMut(&[T]) -> io::Result<bool>) -> io::Result<()> {
    let mut stretch = items.len().div_ceil(2);
    while stretch > 0 {
        let (mut at, before) = (0, items.len());
        while at < items.len() {
            let mut fewer = items.clone();
            fewer.drain(at..(at + stretch).min(items.len()));
            match shows(&fewer)? {
                true => *items = fewer,
                false => at += stretch,
            }
        }
        if stretch > 1 || items.len() == before {
            stretch /= 2;
        }
    }
    Ok(())
}
