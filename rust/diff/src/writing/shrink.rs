//! A smaller case that still differs: columns go, elements go, payloads and numbers become nothing. Room
//! stays as far from the need as it was.

use plain::decoding::ValueTable;
use plain::encoding::written;
use plain::forms::{block_is_formed, block_records};
use plain::value_table::{is_formed, value_records, ValueRecord};

use super::WriteCase;
use crate::case::Case;
use crate::generate::writes::draw::{lay_out, nth, Body, Node};
use crate::generate::writes::schema_of;
use crate::judge::lone_block;
use crate::plan::Plan;

/// How many bytes the row has, where it has any.
fn need(case: &WriteCase) -> Option<usize> {
    written(&case.given()).ok().map(|written| written.bytes.len())
}

/// The same with another schema or value, and room that is as far from the need as before.
fn about(case: &WriteCase, schema: Case, value: ValueTable) -> WriteCase {
    let new = WriteCase { schema, value, ..*case };
    match (need(case), need(&new)) {
        (Some(was), Some(is)) if case.position <= case.output as u64 => {
            WriteCase { output: (case.output + is).saturating_sub(was), ..new }
        }
        _ => new,
    }
}

fn plans(case: &Case) -> Option<Vec<Plan>> {
    let block = lone_block(case);
    if !block_is_formed(&case.records, &case.names, block) {
        return None;
    }
    let plan = |record: &plain::tables::SchemaRecord| Plan {
        code: record.code,
        children: record.child_count as u32,
        name: (record.named == 1).then(|| record.name.of(&case.names).to_vec()),
    };
    Some(block_records(&case.records, block).iter().map(plan).collect())
}

/// A schema in level order without one child of its root, and all below it.
fn without_column(plans: &[Plan], column: usize) -> Vec<Plan> {
    let mut goes = vec![false; plans.len()];
    goes[1 + column] = true;
    let mut child = 1;
    for (index, plan) in plans.iter().enumerate() {
        for _ in 0..plan.children {
            goes[child] |= index > 0 && goes[index];
            child += 1;
        }
    }
    let mut left: Vec<Plan> =
        plans.iter().zip(&goes).filter(|(_, goes)| !**goes).map(|(plan, _)| plan.clone()).collect();
    left[0].children -= 1;
    left
}

fn tree(left: &mut std::slice::Iter<ValueRecord>, payload: &[u8]) -> Node {
    let record = left.next().expect("a child for each count");
    let body = if record.has_children() {
        Body::Children((0..record.size).map(|_| tree(left, payload)).collect())
    } else if record.has_payload() {
        Body::Payload(record.payload(payload).to_vec())
    } else {
        Body::Data(record.data)
    };
    Node::new(record.kind, body).chosen(record.tag as u16, 0)
}

/// What a node may become instead of what it is.
fn smaller(node: &Node) -> Vec<Node> {
    let with = |body: Body| Node { body, ..node.clone() };
    match &node.body {
        Body::Data([0, 0, 0, 0, 0, 0, 0, 0]) => vec![],
        Body::Data(_) => vec![with(Body::Data([0; 8]))],
        Body::Payload(bytes) if node.kind > 7 && !bytes.is_empty() => {
            let lengths = [0, bytes.len() / 2, bytes.len() - 1];
            lengths.map(|length| with(Body::Payload(bytes[..length].to_vec()))).to_vec()
        }
        Body::Children(children) if node.kind == 16 => (0..children.len())
            .map(|gone| {
                let mut left = children.clone();
                left.remove(gone);
                with(Body::Children(left))
            })
            .collect(),
        _ => vec![],
    }
}

fn candidates(case: &WriteCase) -> Vec<WriteCase> {
    let WriteCase { schema, value, .. } = case;
    let mut found = Vec::new();
    if !is_formed(&value.records, &value.payload) {
        for at in 0..value.records.len() / 16 {
            let mut fewer = value.clone();
            fewer.records.drain(at * 16..at * 16 + 16);
            found.push(about(case, schema.clone(), fewer));
        }
        for length in [0, value.payload.len() / 2, value.payload.len().saturating_sub(1)] {
            if length < value.payload.len() {
                let payload = value.payload[..length].to_vec();
                found.push(about(case, schema.clone(), ValueTable { payload, ..value.clone() }));
            }
        }
        return found;
    }
    let root = tree(&mut value_records(&value.records).iter(), &value.payload);
    if let (Some(plans), Body::Children(columns)) = (plans(schema), &root.body) {
        let settings = schema.settings();
        if plans.len() * 16 < schema.records.len() {
            found.push(about(case, schema_of(&plans).with_settings(settings), value.clone()));
        }
        for column in (0..columns.len()).filter(|_| columns.len() == plans[0].children as usize) {
            let fewer = schema_of(&without_column(&plans, column)).with_settings(settings);
            let mut left = columns.clone();
            left.remove(column);
            let left = Node { body: Body::Children(left), ..root.clone() };
            found.push(about(case, fewer, lay_out(&left)));
        }
    }
    for index in 0..root.count() {
        let node = nth(&mut root.clone(), &mut index.clone()).expect("it is among the nodes").clone();
        for other in smaller(&node) {
            let mut root = root.clone();
            *nth(&mut root, &mut index.clone()).expect("it is among the nodes") = other;
            found.push(about(case, schema.clone(), lay_out(&root)));
        }
    }
    found
}

/// Takes the first smaller case that still differs, again and again. Of very long ones too many are to be
/// tried, and they are left as they are.
pub fn shrink(mut case: WriteCase, differs: &mut dyn FnMut(&WriteCase) -> bool) -> WriteCase {
    while case.bytes() < 20_000 {
        let Some(next) = candidates(&case).into_iter().find(|candidate| differs(candidate)) else {
            break;
        };
        case = next;
    }
    case
}

#[cfg(test)]
mod tests {
    use super::*;
    use crate::generate::writes::random;
    use crate::rng::Rng;

    /// A row with a double in it comes down to one column of one double, or what stands above it.
    #[test]
    fn one_column_is_left() {
        let has_double = |case: &WriteCase| {
            need(case).is_some() && value_records(&case.value.records).iter().any(|record| record.kind == 12)
        };
        let mut shrunk = 0;
        for number in 0..1_000 {
            let (_, case) = random(&mut Rng::for_case(6, number));
            if has_double(&case) {
                let small = shrink(case, &mut |case| has_double(case));
                let plans = plans(&small.schema).expect("it was written");
                assert_eq!(plans[0].children, 1);
                shrunk += 1;
            }
        }
        assert!(shrunk > 20, "{shrunk}");
    }
}
