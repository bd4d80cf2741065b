//! A case in words, for whoever has to find out why it differs.

use std::fmt::Write;

use plain::tables::{entry, record_count, reference, schema_record, Reference, Span};
use plain::wire_type::NAMES;

use crate::case::{hex, op, Case};
use crate::indexing::{self, IndexCase};
use crate::room;
use crate::writing::{self, WriteCase};

/// More than this many lines or bytes are not printed.
const MOST_LINES: usize = 80;
const MOST_HEX: usize = 2048;

fn call(case: &Case) -> String {
    let (a, b) = (case.a, case.b);
    match case.op {
        op::PARSE => format!("parse {:?}", String::from_utf8_lossy(&case.names)),
        op::FIXED_WIDTH => format!("fixed_width of code {a}"),
        op::VALIDATE => format!("validate the block of {b} records from record {a}"),
        op::ENCODER => format!("the encoder's check of the block of {b} records from record {a}"),
        op::FORMAT => "the check of a format".to_owned(),
        op::TABLE_SCHEMA => format!("table_schema of table {a}"),
        op::SKIP => format!("skip the row at {a} of {} bytes", case.input.len()),
        op::DECODE => {
            format!("decode the row at {a} of {} bytes, {}", case.input.len(), room::in_words(case))
        }
        op::RUN => format!("run over {} bytes", case.input.len()),
        op::ENCODE => "encode a value table".to_owned(),
        op::CHECK_TABLE => "the check of a value table".to_owned(),
        _ if case.is_of_index() => "an index".to_owned(),
        other => format!("unknown operation {other}"),
    }
}

fn name(case: &Case, span: Span) -> String {
    let (start, length) = (span.start, span.length);
    let inside = start + length <= case.names.len() as u64;
    let text =
        if inside { span.of(&case.names).escape_ascii().to_string() } else { "PAST THE STORE".to_owned() };
    format!("name \"{text}\" (start {start}, length {length})")
}

fn record_line(case: &Case, index: u64) -> String {
    let record = schema_record(&case.records, index);
    let code = NAMES.get(usize::from(record.code)).copied().unwrap_or("NO SUCH CODE");
    let named = match record.named {
        0 if record.name == (Span { start: 0, length: 0 }) => "unnamed".to_owned(),
        1 => name(case, record.name),
        flag => format!("FLAG {flag}, start {}, length {}", record.name.start, record.name.length),
    };
    let (first, count) = (record.first_child, record.child_count);
    format!("{code} ({}), {named}, first child {first}, {count} children", record.code)
}

fn reference_line(case: &Case, index: u64) -> String {
    let reference = reference(&case.references, index);
    let target = match reference.kind {
        Reference::INLINE => {
            let block = reference.block();
            format!("inline, {} records from record {}", block.count, block.first)
        }
        Reference::REGISTRY => format!("registry, {}", name(case, reference.name())),
        kind => format!("KIND {kind}, fields {:?}", reference.fields),
    };
    let rest = if reference.rest == [0; 7] { String::new() } else { format!(", REST {:?}", reference.rest) };
    format!("{target}{rest}")
}

fn entry_line(case: &Case, index: u64) -> String {
    let entry = entry(&case.registry, index);
    format!("{}, {} records from record {}", name(case, entry.name), entry.block.count, entry.block.first)
}

/// A line for each record, or one for a run of records that are alike.
fn table(out: &mut String, title: &str, bytes: &[u8], line: &dyn Fn(u64) -> String) {
    let count = record_count(bytes);
    let tail = bytes.len() % 16;
    let ragged = if tail == 0 { String::new() } else { format!(" AND {tail} BYTES") };
    writeln!(out, "  {title}: {count}{ragged}").unwrap();
    let mut from = 0;
    for _ in 0..MOST_LINES {
        if from == count {
            return;
        }
        let of = |index: u64| &bytes[index as usize * 16..index as usize * 16 + 16];
        let end = (from..count).find(|index| of(*index) != of(from)).unwrap_or(count);
        let range = if end - from == 1 { format!("{from}") } else { format!("{from} to {}", end - 1) };
        writeln!(out, "    {range}: {}", line(from)).unwrap();
        from = end;
    }
    writeln!(out, "    and {} more", count - from).unwrap();
}

fn hex_of_some(bytes: &[u8]) -> String {
    let shown = &bytes[..bytes.len().min(MOST_HEX)];
    match bytes.len() - shown.len() {
        0 => hex(shown),
        more => format!("{} and {more} bytes more", hex(shown)),
    }
}

pub fn settings_in_words(case: &Case) -> String {
    let Case { node_charge, max_string32_bytes, max_yson32_bytes, max_row_bytes, .. } = case;
    let blobs = format!("string32 limit {max_string32_bytes}, yson32 limit {max_yson32_bytes}");
    format!("node charge {node_charge}, {blobs}, row limit {max_row_bytes}")
}

pub fn describe(case: &Case) -> String {
    let mut out = format!("  {}\n", call(case));
    if case.op == op::ENCODE || case.op == op::CHECK_TABLE {
        return out + &writing::describe(&WriteCase::of(case));
    }
    if case.is_of_index() {
        return out + &indexing::describe(&IndexCase::of(case));
    }
    if case.op > op::FIXED_WIDTH {
        table(&mut out, "records", &case.records, &|index| record_line(case, index));
    }
    if case.op >= op::FORMAT {
        table(&mut out, "tables", &case.references, &|index| reference_line(case, index));
        table(&mut out, "registry", &case.registry, &|index| entry_line(case, index));
    }
    writeln!(out, "  name store: {} bytes", case.names.len()).unwrap();
    if case.reads() {
        writeln!(out, "  {}", settings_in_words(case)).unwrap();
        writeln!(out, "  input: {}", hex_of_some(&case.input)).unwrap();
    }
    let mut bytes = Vec::new();
    case.write_to(&mut bytes);
    writeln!(out, "  the case in hex: {}", hex_of_some(&bytes)).unwrap();
    out
}
