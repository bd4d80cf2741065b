//! What the row view has to tell of a row, by the original's tree of values alone: its nodes in preorder are the
//! records, and where a subtree ends is where the walk over it does.

use oracle::Value;
use plain::view::{after, child_count, field, kind, tag};

/// What is told of one node.
#[derive(Debug, Clone, PartialEq, Eq)]
pub struct View {
    kind: u64,
    tag: u64,
    children: u64,
    /// The number of the node that comes after all that stands below.
    after: u64,
    /// Where each field of a tuple stands; nothing of any other value.
    fields: Vec<u64>,
}

/// The views of a value and of all below it, after those that are there.
pub fn add(value: &Value, tag: u16, views: &mut Vec<View>) {
    let own = views.len();
    let (kind, children): (u64, Vec<(&Value, u16)>) = match value {
        Value::Nothing => (0, vec![]),
        Value::Boolean(_) => (1, vec![]),
        Value::Int8(_) => (2, vec![]),
        Value::Int16(_) => (3, vec![]),
        Value::Int32(_) => (4, vec![]),
        Value::Int64(_) => (5, vec![]),
        Value::Int128(_) => (6, vec![]),
        Value::Int256(_) => (7, vec![]),
        Value::Uint8(_) => (8, vec![]),
        Value::Uint16(_) => (9, vec![]),
        Value::Uint32(_) => (10, vec![]),
        Value::Uint64(_) => (11, vec![]),
        Value::Double(_) => (12, vec![]),
        Value::Bytes(_) => (13, vec![]),
        Value::Yson(_) => (14, vec![]),
        Value::Variant { tag, value } => (15, vec![(value, *tag)]),
        Value::RepeatedVariants(items) => (16, items.iter().map(|item| (&item.value, item.tag)).collect()),
        Value::Tuple(values) => (17, values.iter().map(|value| (value, 0)).collect()),
    };
    let tag = u64::from(tag);
    views.push(View { kind, tag, children: children.len() as u64, after: 0, fields: vec![] });
    for (child, tag) in children {
        if kind == 17 {
            let at = views.len() as u64;
            views[own].fields.push(at);
        }
        add(child, tag, views);
    }
    views[own].after = views.len() as u64;
}

/// Which fields of a record are asked for, told by its number and how many it has: the first, the last, one more
/// than there are, and one in between. Not all, so that what is asked grows with the records alone.
pub fn asked_fields(index: u64, count: u64) -> Vec<u64> {
    match count {
        0 => vec![0],
        count => vec![0, count - 1, count, (index * 7 + count / 3) % count],
    }
}

/// Whether the plain reading tells the same of a row's records.
pub fn are_told(views: &[View], records: &[u8]) -> bool {
    (0..).zip(views).all(|(index, view)| {
        let count = view.fields.len() as u64;
        let fields_are_told = || {
            let told = |asked: u64| match view.fields.get(asked as usize) {
                Some(found) => field(records, index, asked) == Ok(*found),
                None => field(records, index, asked).is_err_and(|refusal| refusal.number == 1),
            };
            asked_fields(index, count).into_iter().all(told)
        };
        kind(records, index) == Ok(view.kind)
            && tag(records, index) == Ok(view.tag)
            && child_count(records, index) == Ok(view.children)
            && after(records, index) == Ok(view.after)
            && fields_are_told()
    })
}

#[cfg(test)]
mod tests {
    use super::*;

    /// tuple(7, list of a tuple of two and of nothing).
    #[test]
    fn nodes_are_counted_in_preorder() {
        let pair = Value::Tuple(vec![Value::Uint8(1), Value::Nothing]);
        let items = [(3, pair), (9, Value::Nothing)];
        let items = items.map(|(tag, value)| oracle::Variant { tag, value }).to_vec();
        let row = Value::Tuple(vec![Value::Uint8(7), Value::RepeatedVariants(items)]);
        let mut views = Vec::new();
        add(&row, 0, &mut views);
        let told: Vec<_> =
            views.iter().map(|view| (view.kind, view.tag, view.children, view.after)).collect();
        let wanted = [
            (17, 0, 2, 7),
            (8, 0, 0, 2),
            (16, 0, 2, 7),
            (17, 3, 2, 6),
            (8, 0, 0, 5),
            (0, 0, 0, 6),
            (0, 9, 0, 7),
        ];
        assert_eq!(told, wanted);
        assert_eq!((&views[0].fields[..], &views[3].fields[..]), (&[1, 2][..], &[4, 5][..]));
        assert!(views[2].fields.is_empty());
    }
}
