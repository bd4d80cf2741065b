//! Rows as JSON, and JSON as rows. The two are each other's opposite.

use std::collections::BTreeSet;
use std::io::{self, Write};

use serde_json::{Map, Value as Json};
use skiff::{Format, Row, Schema, Value, ValueRef, Variant, WireType};

use crate::wide;

pub const ABOUT: &str = "\
A row is a line of JSON: an object of its columns; where two columns have one name, an array of them. Where the \
format has several tables, it is {\"table\": N, \"row\": ...}.

  nothing             null
  boolean             true, false
  int8 .. uint64      a number; as text beyond 2^53, where readers of JSON lose digits
  int128, int256      text, in hexadecimal, the highest digit first: \"-1\", \"ff\"
  double              a number; {\"bits\": \"7ff0000000000000\"} where JSON has none
  string32, yson32    text where the bytes are UTF-8, else {\"base64\": \"0cU=\"}
  variant             {\"tag\": 1, \"value\": ...}; of nothing and something else: null or the value
  repeated variant    an array of {\"tag\": 1, \"value\": ...}; of one choice: of the values
  tuple               an object by its fields' names, else an array

`encode` writes what `cat --json` prints as the same rows. It takes each of int8 to uint64 as text, too, in decimal, \
and an int128 or int256 as a number, which is decimal as all of JSON's are. A column of nothing and something else \
may be missing. Rows are refused by line and column.";

/// Beyond this a reader that keeps numbers as doubles loses digits.
const MOST_EXACT: i128 = 1 << 53;

/// A schema, and how its values look.
pub struct Shape {
    wire_type: WireType,
    /// Of a tuple: the fields' names, where each has one of its own.
    names: Option<Vec<String>>,
    /// Of a variant: null or a value.
    is_optional: bool,
    children: Vec<Shape>,
}

impl Shape {
    /// Of a schema that was checked.
    pub fn of(schema: &Schema) -> Self {
        let children: Vec<Shape> = schema.children.iter().map(Self::of).collect();
        let text =
            |name: &Vec<u8>| String::from_utf8(name.clone()).expect("a checked schema's names are UTF-8");
        let names = schema.children.iter().map(|child| child.name.as_ref().map(text));
        let names = names
            .collect::<Option<Vec<String>>>()
            .filter(|names| !names.is_empty() && names.iter().collect::<BTreeSet<_>>().len() == names.len());
        let is_variant = matches!(schema.wire_type, WireType::Variant8 | WireType::Variant16);
        let is_optional = match &children[..] {
            [none, some] => is_variant && none.wire_type == WireType::Nothing && !some.may_be_null(),
            _ => false,
        };
        Self { wire_type: schema.wire_type, names, is_optional, children }
    }

    fn may_be_null(&self) -> bool {
        self.wire_type == WireType::Nothing || self.is_optional
    }
}

/// The shapes of all tables of a format that was checked.
pub fn schemas(format: &Format) -> Vec<Shape> {
    (0..=u16::MAX)
        .take(format.tables())
        .map_while(|table| format.table_schema(table)?.schema())
        .map(|schema| Shape::of(&schema))
        .collect()
}

/// A row as a line.
pub fn write_row(out: &mut dyn Write, shapes: &[Shape], row: &Row) -> io::Result<()> {
    let shape = &shapes[usize::from(row.table())];
    if shapes.len() == 1 {
        write_value(out, shape, &row.value())?;
    } else {
        write!(out, "{{\"table\":{},\"row\":", row.table())?;
        write_value(out, shape, &row.value())?;
        write!(out, "}}")?;
    }
    writeln!(out)
}

fn write_text(out: &mut dyn Write, text: &str) -> io::Result<()> {
    Ok(serde_json::to_writer(out, text)?)
}

fn write_blob(out: &mut dyn Write, bytes: &[u8]) -> io::Result<()> {
    match std::str::from_utf8(bytes) {
        Ok(text) => write_text(out, text),
        Err(_) => write!(out, "{{\"base64\":\"{}\"}}", base64::encode(bytes)),
    }
}

fn write_value(out: &mut dyn Write, shape: &Shape, value: &ValueRef) -> io::Result<()> {
    match value {
        ValueRef::Nothing => write!(out, "null"),
        ValueRef::Boolean(truth) => write!(out, "{truth}"),
        ValueRef::Int128(_) | ValueRef::Int256(_) => write!(out, "\"{value}\""),
        ValueRef::Double(number) if number.is_finite() => Ok(serde_json::to_writer(out, number)?),
        ValueRef::Double(number) => write!(out, "{{\"bits\":\"{:016x}\"}}", number.to_bits()),
        ValueRef::Bytes(bytes) | ValueRef::Yson(bytes) => write_blob(out, bytes),
        ValueRef::Variant(chosen) if shape.is_optional => {
            write_value(out, &shape.children[usize::from(chosen.tag())], &chosen.value())
        }
        ValueRef::Variant(chosen) => write_chosen(out, shape, chosen.tag(), &chosen.value()),
        ValueRef::RepeatedVariants(items) => {
            let only = (shape.children.len() == 1).then(|| &shape.children[0]);
            write_all(out, "[]", items.clone(), |out, _, item| match only {
                Some(shape) => write_value(out, shape, &item.value()),
                None => write_chosen(out, shape, item.tag(), &item.value()),
            })
        }
        ValueRef::Tuple(values) => match &shape.names {
            None => write_all(out, "[]", values.clone(), |out, index, value| {
                write_value(out, &shape.children[index], &value)
            }),
            Some(names) => write_all(out, "{}", values.clone(), |out, index, value| {
                write_text(out, &names[index])?;
                write!(out, ":")?;
                write_value(out, &shape.children[index], &value)
            }),
        },
        integer => {
            let number = integer.as_i128().expect("all other values are integers");
            match number.abs() <= MOST_EXACT {
                true => write!(out, "{number}"),
                false => write!(out, "\"{number}\""),
            }
        }
    }
}

fn write_chosen(out: &mut dyn Write, shape: &Shape, tag: u16, value: &ValueRef) -> io::Result<()> {
    write!(out, "{{\"tag\":{tag},\"value\":")?;
    write_value(out, &shape.children[usize::from(tag)], value)?;
    write!(out, "}}")
}

/// Items between two brackets.
fn write_all<T>(
    out: &mut dyn Write,
    brackets: &str,
    items: impl Iterator<Item = T>,
    mut write: impl FnMut(&mut dyn Write, usize, T) -> io::Result<()>,
) -> io::Result<()> {
    let (open, close) = brackets.split_at(1);
    write!(out, "{open}")?;
    for (index, item) in items.enumerate() {
        if index > 0 {
            write!(out, ",")?;
        }
        write(out, index, item)?;
    }
    write!(out, "{close}")
}

/// Which value is wrong, and what is wrong with it.
pub struct Fault {
    steps: Vec<String>,
    words: String,
}

impl Fault {
    fn new(words: impl Into<String>) -> Self {
        Self { steps: Vec::new(), words: words.into() }
    }

    fn below(mut self, step: impl Into<String>) -> Self {
        self.steps.push(step.into());
        self
    }

    pub fn words(&self) -> String {
        let mut path: Vec<&str> = self.steps.iter().rev().map(String::as_str).collect();
        path.push(&self.words);
        path.join(": ")
    }
}

/// The value of a line, for table 0.
pub fn read_row(shapes: &[Shape], line: &Json) -> Result<Value, Fault> {
    if shapes.len() == 1 {
        return read_value(&shapes[0], line);
    }
    let (table, row) = two(line, "table", "row")?;
    if table.as_u64() != Some(0) {
        return Err(Fault::new("only rows of table 0 can be written"));
    }
    read_value(&shapes[0], row)
}

fn kind(json: &Json) -> &'static str {
    match json {
        Json::Null => "null",
        Json::Bool(_) => "a boolean",
        Json::Number(_) => "a number",
        Json::String(_) => "text",
        Json::Array(_) => "an array",
        Json::Object(_) => "an object",
    }
}

fn wanted(shape: &Shape, json: &Json) -> Fault {
    Fault::new(format!("{} is no {}", kind(json), shape.wire_type))
}

/// The two members of an object that has no others.
fn two<'j>(json: &'j Json, one: &str, other: &str) -> Result<(&'j Json, &'j Json), Fault> {
    let words = || Fault::new(format!("{} in place of {{\"{one}\": ..., \"{other}\": ...}}", kind(json)));
    let object = json.as_object().filter(|object| object.len() == 2).ok_or_else(words)?;
    Ok((object.get(one).ok_or_else(words)?, object.get(other).ok_or_else(words)?))
}

/// The text of an object with this only member.
fn only<'j>(json: &'j Json, name: &str) -> Option<&'j str> {
    json.as_object().filter(|object| object.len() == 1)?.get(name)?.as_str()
}

fn integer<T: TryFrom<i128>>(shape: &Shape, json: &Json) -> Result<T, Fault> {
    let number = match json {
        Json::Number(number) => number.as_i64().map(i128::from).or_else(|| number.as_u64().map(i128::from)),
        Json::String(text) => text.parse::<i128>().ok(),
        _ => None,
    };
    let number = number.ok_or_else(|| wanted(shape, json))?;
    T::try_from(number).map_err(|_| Fault::new(format!("{number} is no {}", shape.wire_type)))
}

/// An int128 or int256: as text in hexadecimal, as it is written; as a number in decimal.
fn wide_integer<const BYTES: usize>(shape: &Shape, json: &Json) -> Result<[u8; BYTES], Fault> {
    let words = |text: &str| Fault::new(format!("{text:?} is no {} in hexadecimal", shape.wire_type));
    match json {
        Json::String(text) => wide::from_hex(text).ok_or_else(|| words(text)),
        other => integer(shape, other).map(wide::from_number),
    }
}

fn blob(shape: &Shape, json: &Json) -> Result<Vec<u8>, Fault> {
    match (json, only(json, "base64")) {
        (Json::String(text), _) => Ok(text.as_bytes().to_vec()),
        (_, Some(text)) => base64::decode(text).map_err(|error| Fault::new(error.to_string())),
        _ => Err(wanted(shape, json)),
    }
}

fn double(shape: &Shape, json: &Json) -> Result<f64, Fault> {
    let bits = only(json, "bits").and_then(|bits| u64::from_str_radix(bits, 16).ok());
    json.as_f64().or(bits.map(f64::from_bits)).ok_or_else(|| wanted(shape, json))
}

fn read_value(shape: &Shape, json: &Json) -> Result<Value, Fault> {
    Ok(match shape.wire_type {
        WireType::Nothing => match json {
            Json::Null => Value::Nothing,
            _ => return Err(wanted(shape, json)),
        },
        WireType::Boolean => Value::Boolean(json.as_bool().ok_or_else(|| wanted(shape, json))?),
        WireType::Int8 => Value::Int8(integer(shape, json)?),
        WireType::Int16 => Value::Int16(integer(shape, json)?),
        WireType::Int32 => Value::Int32(integer(shape, json)?),
        WireType::Int64 => Value::Int64(integer(shape, json)?),
        WireType::Int128 => Value::Int128(i128::from_le_bytes(wide_integer(shape, json)?)),
        WireType::Int256 => Value::Int256(wide_integer(shape, json)?),
        WireType::Uint8 => Value::Uint8(integer(shape, json)?),
        WireType::Uint16 => Value::Uint16(integer(shape, json)?),
        WireType::Uint32 => Value::Uint32(integer(shape, json)?),
        WireType::Uint64 => Value::Uint64(integer(shape, json)?),
        WireType::Double => Value::Double(double(shape, json)?),
        WireType::String32 => Value::Bytes(blob(shape, json)?),
        WireType::Yson32 => Value::Yson(blob(shape, json)?),
        WireType::Variant8 | WireType::Variant16 if shape.is_optional => match json {
            Json::Null => Value::variant(0, Value::Nothing),
            some => Value::variant(1, read_value(&shape.children[1], some)?),
        },
        WireType::Variant8 | WireType::Variant16 => Value::Variant(Box::new(read_chosen(shape, json)?)),
        WireType::RepeatedVariant8 | WireType::RepeatedVariant16 => {
            let items = json.as_array().ok_or_else(|| wanted(shape, json))?;
            let item = |json: &Json| match &shape.children[..] {
                [only] => Ok(Variant { tag: 0, value: read_value(only, json)? }),
                _ => read_chosen(shape, json),
            };
            let items = items
                .iter()
                .enumerate()
                .map(|(index, json)| item(json).map_err(|fault| fault.below(format!("element {index}"))));
            Value::RepeatedVariants(items.collect::<Result<_, _>>()?)
        }
        WireType::Tuple => Value::Tuple(match (&shape.names, json) {
            (Some(names), Json::Object(object)) => read_named(shape, names, object)?,
            (None, Json::Array(values)) if values.len() == shape.children.len() => {
                let values = shape.children.iter().zip(values).enumerate();
                let value = |(index, (child, value)): (usize, (&Shape, &Json))| {
                    read_value(child, value).map_err(|fault| fault.below(format!("field {index}")))
                };
                values.map(value).collect::<Result<_, _>>()?
            }
            (None, Json::Array(values)) => {
                let (wanted, given) = (shape.children.len(), values.len());
                return Err(Fault::new(format!("{given} values in place of {wanted}")));
            }
            _ => return Err(wanted(shape, json)),
        }),
    })
}

fn read_chosen(shape: &Shape, json: &Json) -> Result<Variant, Fault> {
    let (tag, value) = two(json, "tag", "value")?;
    let child = tag.as_u64().and_then(|tag| shape.children.get(usize::try_from(tag).ok()?));
    let child = child.ok_or_else(|| Fault::new(format!("tag {tag} chooses nothing")))?;
    let tag = tag.as_u64().and_then(|tag| u16::try_from(tag).ok()).expect("it chooses a child");
    let value = read_value(child, value).map_err(|fault| fault.below(format!("tag {tag}")))?;
    Ok(Variant { tag, value })
}

fn read_named(shape: &Shape, names: &[String], object: &Map<String, Json>) -> Result<Vec<Value>, Fault> {
    if let Some(unknown) = object.keys().find(|name| !names.contains(name)) {
        return Err(Fault::new(format!("there is no column {unknown:?}")));
    }
    let value = |(child, name): (&Shape, &String)| {
        let missing = || Fault::new("it is missing");
        let json = match object.get(name) {
            Some(json) => json,
            None if child.is_optional => &Json::Null,
            None => return Err(missing().below(format!("column {name:?}"))),
        };
        read_value(child, json).map_err(|fault| fault.below(format!("column {name:?}")))
    };
    shape.children.iter().zip(names).map(value).collect()
}
