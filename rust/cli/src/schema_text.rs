//! A format as text: a line for each node, children below and further in.

use skiff::{Format, FormatBuilder, FormatTables, Schema, TableRef, WireType};

pub const ABOUT: &str = "\
Turns a schema as text into flat tables, and back.

Of a text: writes schema.rec, schema.nam, tables.ref and registry.reg to the folder that --output names. Of a \
folder: prints the text.

  table                     # a table, whose columns stand below it
    page: uint8
    name: optional string32 # a variant8 of nothing and a string32
    tags: repeated_variant8 # what stands below a type is its choices, or its fields
      int64
      tuple
        x: double
        \"two words\": boolean
  table shared              # a table whose schema is in the registry
  schema shared             # a schema of the registry
    id: uint64

Each level stands two spaces further in, or more. A node may have a name, the columns of a table have to. Names are \
UTF-8; in quotes a byte may be given as \\x and two digits.";

/// What is wrong with a text.
type Words = String;

struct Line<'t> {
    number: usize,
    indent: usize,
    text: &'t str,
}

/// The lines that say something.
fn lines(text: &str) -> Result<Vec<Line<'_>>, Words> {
    let mut lines = Vec::new();
    for (number, line) in (1..).zip(text.lines()) {
        let text = line[..end_of_code(line)].trim_end();
        let indent = text.len() - text.trim_start_matches(' ').len();
        if text.trim().is_empty() {
            continue;
        }
        if text[indent..].starts_with(char::is_whitespace) {
            return Err(format!("line {number}: only spaces stand before a node"));
        }
        lines.push(Line { number, indent, text: &text[indent..] });
    }
    Ok(lines)
}

/// Where a comment begins.
fn end_of_code(line: &str) -> usize {
    let (mut quoted, mut escaped) = (false, false);
    for (at, letter) in line.char_indices() {
        match letter {
            _ if escaped => escaped = false,
            '\\' if quoted => escaped = true,
            '"' => quoted = !quoted,
            '#' if !quoted => return at,
            _ => {}
        }
    }
    line.len()
}

/// A name at the start of a text, bare or quoted, and what comes after it.
fn name(text: &str) -> Result<(Vec<u8>, &str), Words> {
    let Some(quoted) = text.strip_prefix('"') else {
        let end = text.find(|letter: char| letter == ':' || letter.is_whitespace()).unwrap_or(text.len());
        return Ok((text.as_bytes()[..end].to_vec(), &text[end..]));
    };
    let mut bytes = Vec::new();
    let mut letters = quoted.char_indices();
    while let Some((at, letter)) = letters.next() {
        match letter {
            '"' => return Ok((bytes, &quoted[at + 1..])),
            '\\' => match letters.next().map(|(_, letter)| letter) {
                Some(letter @ ('"' | '\\' | '\'')) => bytes.push(letter as u8),
                Some('n') => bytes.push(b'\n'),
                Some('r') => bytes.push(b'\r'),
                Some('t') => bytes.push(b'\t'),
                Some('x') => {
                    let digits = quoted.get(at + 2..at + 4).and_then(|two| u8::from_str_radix(two, 16).ok());
                    bytes.push(digits.ok_or("\\x needs two digits")?);
                    letters.nth(1);
                }
                _ => return Err("no such escape".to_owned()),
            },
            letter => bytes.extend(letter.encode_utf8(&mut [0; 4]).as_bytes()),
        }
    }
    Err("a quote has no end".to_owned())
}

/// `[NAME:] [optional] TYPE`, and whether it is optional.
fn node(text: &str) -> Result<(Schema, bool), Words> {
    let named = match name(text) {
        Ok((name, rest)) => rest.trim_start().strip_prefix(':').map(|rest| (name, rest.trim_start())),
        Err(words) if text.starts_with('"') => return Err(words),
        Err(_) => None,
    };
    let (name, rest) = named.map_or((None, text), |(name, rest)| (Some(name), rest));
    let (optional, wire_type) = match rest.strip_prefix("optional ") {
        Some(wire_type) => (true, wire_type.trim()),
        None => (false, rest.trim()),
    };
    let leaf = WireType::parse(wire_type).ok_or_else(|| format!("{wire_type:?} is no wire type"))?;
    Ok((Schema { name, ..Schema::leaf(leaf) }, optional))
}

/// The nodes that stand further in than `above`, from the first line on; they are taken from `lines`.
fn children(lines: &mut &[Line], above: usize, levels: usize) -> Result<Vec<Schema>, Words> {
    let mut nodes = Vec::new();
    let mut level = None;
    while let Some((line, rest)) = lines.split_first().filter(|(line, _)| line.indent > above) {
        let words = |words: &str| format!("line {}: {words}", line.number);
        if *level.get_or_insert(line.indent) != line.indent {
            return Err(words("it stands at no level of those before it"));
        }
        if levels == 0 {
            return Err(words("more than 64 levels"));
        }
        *lines = rest;
        let (mut schema, optional) = node(line.text).map_err(|error| words(&error))?;
        schema.children = children(lines, line.indent, levels - 1)?;
        nodes.push(if optional { schema.optional() } else { schema });
    }
    Ok(nodes)
}

/// The flat tables of a text. Whether they are a format, the library says.
pub fn tables(text: &str) -> Result<FormatTables, Words> {
    let all = lines(text)?;
    let mut left = &all[..];
    let mut builder = FormatBuilder::new();
    while let Some((line, rest)) = left.split_first() {
        left = rest;
        let words = |words: &str| format!("line {}: {words}", line.number);
        let (keyword, given) = line.text.split_once(' ').unwrap_or((line.text, ""));
        let (given, after) = name(given.trim()).map_err(|error| words(&error))?;
        let is_named = line.text.contains(' ');
        if line.indent > 0 || !after.is_empty() {
            return Err(words("`table`, `table NAME` or `schema NAME` at the line's start"));
        }
        let below = children(&mut left, 0, 63)?;
        builder = match (keyword, is_named) {
            ("table", false) => builder.table(Schema::tuple(below)),
            ("table", true) if below.is_empty() => builder.table_from_registry(given),
            ("schema", true) => builder.register(given, Schema::tuple(below)),
            _ => {
                return Err(words(
                    "`table`, `table NAME` or `schema NAME`, and columns below the first or last",
                ))
            }
        };
    }
    builder.build().map_err(|error| error.to_string())
}

fn shown_name(name: &[u8]) -> String {
    let is_plain = |byte: &u8| byte.is_ascii_alphanumeric() || b"_.-".contains(byte);
    if !name.is_empty() && name.iter().all(is_plain) {
        return String::from_utf8_lossy(name).into_owned();
    }
    format!("\"{}\"", name.escape_ascii())
}

fn show(node: &Schema, level: usize, out: &mut String) {
    let (mut shown, mut optional) = (node, "");
    // As `Schema::optional` makes it, and no other.
    if let (WireType::Variant8, [none, some]) = (node.wire_type, &node.children[..]) {
        if *none == Schema::leaf(WireType::Nothing) && some.name.is_none() {
            (shown, optional) = (some, "optional ");
        }
    }
    let name = node.name.as_ref().map_or(String::new(), |name| format!("{}: ", shown_name(name)));
    out.push_str(&format!("{:width$}{name}{optional}{}\n", "", shown.wire_type, width = 2 * level));
    shown.children.iter().for_each(|child| show(child, level + 1, out));
}

/// The text of a format that was checked. None where a schema of the registry, which no table has, is no tuple.
pub fn text(format: &Format) -> Option<String> {
    let mut out = String::new();
    let columns = |schema: Schema, out: &mut String| {
        let is_plain = schema.wire_type == WireType::Tuple && schema.name.is_none();
        schema.children.iter().for_each(|child| show(child, 1, out));
        is_plain.then_some(())
    };
    for table in format.table_refs() {
        match table {
            TableRef::Registry(name) => out.push_str(&format!("table {}\n", shown_name(name))),
            TableRef::Inline(block) => {
                out.push_str("table\n");
                columns(block.schema()?, &mut out)?;
            }
        }
    }
    for (name, block) in format.registered() {
        out.push_str(&format!("schema {}\n", shown_name(name)));
        columns(block.schema()?, &mut out)?;
    }
    Some(out)
}
