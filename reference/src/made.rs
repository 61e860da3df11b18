//! The made source: groups of two branches, each with a block whose length goes by the number of the group.

use std::fmt::Write;

const GROUPS_A_FUNCTION: u64 = 64;

/// The source of so many groups.
pub fn made_source(groups: u64) -> String {
    let functions = groups.div_ceil(GROUPS_A_FUNCTION);
    let mut text = String::new();
    for number in 0..functions {
        let first = number * GROUPS_A_FUNCTION;
        let end = groups.min(first + GROUPS_A_FUNCTION);
        put(&mut text, format_args!("fn g{number}() {{"));
        (first..end).for_each(|group| put_group(&mut text, group));
        put(&mut text, format_args!("}}"));
    }
    put(&mut text, format_args!("fn main() {{"));
    (0..functions).for_each(|number| put(&mut text, format_args!("call g{number}();")));
    put(&mut text, format_args!("}}"));
    text
}

fn put_group(text: &mut String, group: u64) {
    let left = 1 + 37 * group % 400;
    let right = 1 + 53 * group % 400;
    put(
        text,
        format_args!(
            "par {{ alloc a = {left}; a[0] = {group}; print a[0]; free a; }} \
             and {{ alloc b = {right}; b[0] = {group}; print b[0]; free b; }}"
        ),
    );
}

fn put(text: &mut String, line: std::fmt::Arguments) {
    writeln!(text, "{line}").expect("a text takes what is written");
}
