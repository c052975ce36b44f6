//! Parents and the names of segments: 01's rule, and what 02 h adds to it.
use super::delta::{Written, within};
use crate::raw::{self, Reply};
use crate::reply::{refused, taken};

fn marked(part: &str) -> bool {
    part.contains(['?', '#'])
}

/// Tenant, namespace and rest of a text's path: a parent by 01's rule alone. Those that 02 h forbids are among them.
fn parts(text: &str) -> Option<[&str; 3]> {
    let path = text.strip_prefix("topic://")?;
    let (tenant, behind) = path.split_once('/')?;
    let (namespace, rest) = behind.split_once('/')?;
    let bad = [tenant, namespace, rest].contains(&"") || rest.ends_with('/') || marked(rest);
    if bad { None } else { Some([tenant, namespace, rest]) }
}

/// A parent by 02 h: none of its three parts has '?' or '#'.
pub fn is_parent(text: &str) -> bool {
    parts(text).is_some_and(|parts| !parts.into_iter().any(marked))
}

/// '?' or '#' in what stands before the second '/' of a parent's path.
pub fn marked_in_front(text: &str) -> bool {
    let path = text.strip_prefix("topic://").unwrap_or(text);
    path.split('/').take(2).any(marked)
}

/// The text that the name would have as a parent, where it has the form for one.
pub fn parent_of(name: &str) -> Option<(String, &str)> {
    let (path, descriptor) = name.strip_prefix("segment://")?.rsplit_once('/')?;
    Some((format!("topic://{path}"), descriptor))
}

/// 9 without a segment's id.
fn range(start: u64, end: u64) -> Result<(), Reply> {
    match (start, end) {
        (65_536.., _) => Err(refused(9, &[1, start])),
        (_, 65_536..) => Err(refused(9, &[2, end])),
        _ if end < start => Err(refused(9, &[3, start, end])),
        _ => Ok(()),
    }
}

/// The name builder: 7, 9, 12, 21.
pub fn built(parent: &[u8], (start, end): (u32, u32), id: u64, room: usize) -> Written {
    let name = || -> Result<String, Reply> {
        let parent = std::str::from_utf8(parent).map_err(|_| refused(7, &[]))?;
        range(start.into(), end.into())?;
        let path = parent.strip_prefix("topic://").filter(|_| is_parent(parent)).ok_or_else(|| refused(12, &[]))?;
        Ok(format!("segment://{path}/{start:04x}-{end:04x}-{id}"))
    };
    name().map_or_else(|reply| (reply, Vec::new()), |name| within(name.into_bytes(), room))
}

/// Start, end and id of a descriptor.
fn descriptor(text: &str) -> Option<(u64, u64, u64)> {
    let word = |text: &str| {
        let good = text.len() == 4 && text.bytes().all(|byte| matches!(byte, b'0'..=b'9' | b'a'..=b'f'));
        if good { u64::from_str_radix(text, 16).ok() } else { None }
    };
    let id = |text: &str| {
        let good = text.bytes().all(|byte| byte.is_ascii_digit()) && (text == "0" || !text.starts_with('0'));
        if good { text.parse().ok() } else { None }
    };
    let [start, end, number] = text.split('-').collect::<Vec<_>>().try_into().ok()?;
    Some((word(start)?, word(end)?, id(number)?))
}

/// 7, 18 without prefix or slash, 12, 18, 9: the parent, the range's ends and the id.
fn read(name: &[u8]) -> Result<(String, u64, u64, u64), Reply> {
    let name = std::str::from_utf8(name).map_err(|_| refused(7, &[]))?;
    let (parent, text) = parent_of(name).ok_or_else(|| refused(18, &[]))?;
    if !is_parent(&parent) {
        return Err(refused(12, &[]));
    }
    let (start, end, id) = descriptor(text).ok_or_else(|| refused(18, &[]))?;
    range(start, end)?;
    Ok((parent, start, end, id))
}

/// The segment name, then 19.
pub fn source(id: u64, name: &[u8]) -> Reply {
    match read(name) {
        Err(reply) => reply,
        Ok((_, _, _, named)) if named != id => refused(19, &[id, named]),
        Ok((_, start, end, _)) => taken(raw::FOUND, &[start, end]),
    }
}

/// The parent of a name, then 21.
pub fn parent(name: &[u8], room: usize) -> Written {
    read(name).map_or_else(|reply| (reply, Vec::new()), |(parent, ..)| within(parent.into_bytes(), room))
}
