//! 01, Path equality: components, parent, normal spelling.

/// The components: `/` for the root, else parts of the path. Empty parts are dropped; a part `.` is dropped
/// except as the very first part of a path without root.
pub fn components(path: &[u8]) -> Vec<&[u8]> {
    let mut found = Vec::new();
    let rooted = path.first() == Some(&b'/');
    if rooted {
        found.push(&path[..1]);
    }
    for (place, part) in path.split(|byte| *byte == b'/').enumerate() {
        let leading_dot = part == b"." && place == 0 && !rooted;
        if (part.is_empty() || part == b".") && !leading_dot {
            continue;
        }
        found.push(part);
    }
    found
}

/// Whether two paths have the same components.
pub fn same(one: &[u8], two: &[u8]) -> bool {
    components(one) == components(two)
}

/// Components joined with one `/`, none after the root.
fn join(components: &[&[u8]]) -> Vec<u8> {
    match components.split_first() {
        Some((&b"/", rest)) => [b"/", rest.join(&b'/').as_slice()].concat(),
        _ => components.join(&b'/'),
    }
}

/// The normal spelling.
pub fn normal(path: &[u8]) -> Vec<u8> {
    join(&components(path))
}

/// The normal spelling of the parent: the last component dropped. The root and the empty path have none.
pub fn parent(path: &[u8]) -> Option<Vec<u8>> {
    let parts = components(path);
    let (last, rest) = parts.split_last()?;
    if *last == b"/" {
        return None;
    }
    Some(join(rest))
}

/// The non-empty ancestors in normal spelling, nearest first.
pub fn ancestors(path: &[u8]) -> Vec<Vec<u8>> {
    let mut found = Vec::new();
    let mut at = parent(path);
    while let Some(dir) = at {
        if dir.is_empty() {
            break;
        }
        at = parent(&dir);
        found.push(dir);
    }
    found
}
