//! Schemas and values by chance, the same in each run.

#![allow(dead_code, reason = "each test uses a part")]

use skiff::{FormatBuilder, FormatTables, Schema, Value, Variant, WireType};

/// A sequence of numbers that look like chance (SplitMix64).
pub struct Chance(pub u64);

impl Chance {
    pub fn number(&mut self) -> u64 {
        self.0 = self.0.wrapping_add(0x9E37_79B9_7F4A_7C15);
        let mut mixed = self.0;
        mixed = (mixed ^ (mixed >> 30)).wrapping_mul(0xBF58_476D_1CE4_E5B9);
        mixed = (mixed ^ (mixed >> 27)).wrapping_mul(0x94D0_49BB_1331_11EB);
        mixed ^ (mixed >> 31)
    }

    pub fn below(&mut self, bound: usize) -> usize {
        (self.number() % bound as u64) as usize
    }

    pub fn bytes(&mut self, most: usize) -> Vec<u8> {
        let length = self.below(most + 1);
        (0..length).map(|_| self.number() as u8).collect()
    }

    /// Characters of one to four bytes.
    pub fn text(&mut self, most: usize) -> String {
        let length = self.below(most + 1);
        let bits = [7, 11, 16, 20];
        (0..length)
            .map(|_| {
                let number = self.number() as u32 & ((1 << bits[self.below(4)]) - 1);
                char::from_u32(number).unwrap_or('\u{FFFD}')
            })
            .collect()
    }

    fn wide<const N: usize>(&mut self) -> [u8; N] {
        std::array::from_fn(|_| self.number() as u8)
    }

    /// A node of any type, at most so many levels deep.
    pub fn schema(&mut self, levels: usize) -> Schema {
        let code = if levels > 1 { self.below(24).min(20) } else { self.below(15) };
        let wire_type = WireType::from_code(code.min(19) as u64).expect("a code");
        let count = match code {
            0..=14 => 0,
            // A variant needs a child for there to be a value.
            15 | 16 => 1 + self.below(3),
            _ => self.below(4),
        };
        let children: Vec<_> = (0..count).map(|_| self.schema(levels - 1)).collect();
        let node = Schema::node(wire_type, children);
        if self.below(3) == 0 {
            return node.named(self.text(3));
        }
        node
    }

    /// A table's schema: its columns are named `a`, `b` and so on.
    pub fn table(&mut self, columns: usize) -> Schema {
        let column = |index: usize| self.schema(4).named([b'a' + index as u8]);
        Schema::tuple((0..columns).map(column).collect::<Vec<_>>())
    }

    /// A value of a schema.
    pub fn value(&mut self, schema: &Schema) -> Value {
        let number = self.number();
        match schema.wire_type {
            WireType::Nothing => Value::Nothing,
            WireType::Boolean => Value::Boolean(number & 1 == 1),
            WireType::Int8 => Value::Int8(number as i8),
            WireType::Int16 => Value::Int16(number as i16),
            WireType::Int32 => Value::Int32(number as i32),
            WireType::Int64 => Value::Int64(number as i64),
            WireType::Int128 => Value::Int128(i128::from_le_bytes(self.wide())),
            WireType::Int256 => Value::Int256(self.wide()),
            WireType::Uint8 => Value::Uint8(number as u8),
            WireType::Uint16 => Value::Uint16(number as u16),
            WireType::Uint32 => Value::Uint32(number as u32),
            WireType::Uint64 => Value::Uint64(number),
            // Each bit pattern, but no NaN: a tree is compared by value.
            WireType::Double => match f64::from_bits(number) {
                double if double.is_nan() => Value::Double(0.5),
                double => Value::Double(double),
            },
            WireType::String32 => Value::Bytes(self.bytes(9)),
            WireType::Yson32 => Value::Yson(self.bytes(5)),
            WireType::Variant8 | WireType::Variant16 => {
                let Variant { tag, value } = self.chosen(schema);
                Value::variant(tag, value)
            }
            WireType::RepeatedVariant8 | WireType::RepeatedVariant16 => {
                let most = if schema.children.is_empty() { 0 } else { 3 };
                let count = self.below(most + 1);
                Value::RepeatedVariants((0..count).map(|_| self.chosen(schema)).collect())
            }
            WireType::Tuple => Value::Tuple(schema.children.iter().map(|child| self.value(child)).collect()),
        }
    }

    fn chosen(&mut self, schema: &Schema) -> Variant {
        let tag = self.below(schema.children.len());
        Variant { tag: tag as u16, value: self.value(&schema.children[tag]) }
    }
}

pub fn one_table(schema: &Schema) -> FormatTables {
    FormatBuilder::new().table(schema.clone()).build().expect("short names")
}

/// tuple("page" uint8, "name" variant8(nothing, string32)).
pub fn schema_a() -> Schema {
    let name = Schema::leaf(WireType::String32).named("name").optional();
    Schema::tuple([Schema::leaf(WireType::Uint8).named("page"), name])
}

/// tuple("v" repeated_variant8(boolean, int8)).
pub fn schema_b() -> Schema {
    let items = [Schema::leaf(WireType::Boolean), Schema::leaf(WireType::Int8)];
    Schema::tuple([Schema::node(WireType::RepeatedVariant8, items).named("v")])
}
