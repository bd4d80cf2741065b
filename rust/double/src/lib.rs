//! A TEST DOUBLE, not the library: its C functions, under its symbols, with the plain reading behind them,
//! and with a planted fault where DOUBLE_FAULT names one. The front end and row-diff can be built over it
//! where there is no archive, and the harness's own tests show with it that a wrong library is found out.
//!
//! Nothing that is said of the library may rest on a run over this.

mod checking;
mod decoding;
mod encoding;
mod fault;
mod indexing;
mod integer;
mod naming;
mod viewing;

use std::slice;

use plain::encoding::Given;
use plain::reading::{run, skip};
use plain::report::{what, Report};
use plain::settings::{Settings, MOST};
use plain::tables::{Block, FormatTables};

/// All that a reading call is given but for its answer slice. A run's position is 0.
#[derive(Clone, Copy)]
struct Call<'a> {
    settings: Settings,
    tables: FormatTables<'a>,
    input: &'a [u8],
    position: u64,
    is_run: bool,
}

impl Call<'_> {
    fn report(&self) -> Report {
        if self.is_run {
            Report::of_run(&run(&self.settings, &self.tables, self.input))
        } else {
            Report::of_skip(&skip(&self.settings, &self.tables, self.input, self.position))
        }
    }

    /// The run over a window that begins where so many rows, of so many bytes, end; no fault is planted in it.
    fn window_report(&self, rows: u64, bytes: u64) -> Report {
        let length = bytes.saturating_add(self.input.len() as u64);
        if rows > bytes || length > MOST {
            return Report { what: what::REFUSAL, number: 1, ..Report::default() };
        }
        let ran = self.report();
        let start = if (11..=17).contains(&ran.number) { bytes } else { 0 };
        Report {
            place: ran.place + start,
            rows: ran.rows + rows,
            bytes: ran.bytes + bytes,
            table: u64::from(ran.what == what::END || ran.number == 12),
            ..ran
        }
    }
}

macro_rules! reading_call {
    ($symbol:literal, $name:ident, $is_run:literal, $position:expr, ($($extra:ident: $type:ty),*), $finish:expr) => {
        /// # Safety
        /// Each pointer leads to as many bytes as the length after it says.
        #[export_name = $symbol]
        pub unsafe extern "C" fn $name(
            node_charge: u64,
            max_string32_bytes: u64,
            max_yson32_bytes: u64,
            max_row_bytes: u64,
            records: *const u8,
            records_len: usize,
            names: *const u8,
            names_len: usize,
            references: *const u8,
            references_len: usize,
            registry: *const u8,
            registry_len: usize,
            input: *const u8,
            input_len: usize,
            $($extra: $type,)*
            answer: *mut u8,
            answer_len: usize,
        ) -> u32 {
            let names = slice::from_raw_parts(names, names_len);
            let taken = naming::taken_store("rows_are_read_whatever_the_names", names);
            let tables = FormatTables {
                records: slice::from_raw_parts(records, records_len),
                names: taken.as_deref().unwrap_or(names),
                references: slice::from_raw_parts(references, references_len),
                registry: slice::from_raw_parts(registry, registry_len),
            };
            let settings = Settings { node_charge, max_string32_bytes, max_yson32_bytes, max_row_bytes };
            let call = Call {
                settings: fault::taken(settings),
                tables,
                input: slice::from_raw_parts(input, input_len),
                position: $position,
                is_run: $is_run,
            };
            let finish = $finish;
            let answer = slice::from_raw_parts_mut(answer, answer_len);
            let returned = finish(call, &mut *answer);
            fault::carries_another_limit(&settings, answer);
            returned
        }
    };
}

reading_call!("skiff2_skip", skiff_skip, false, position, (position: u64), fault::answer);
reading_call!("skiff2_run", skiff_run, true, 0, (), fault::answer);
reading_call!(
    "skiff2_run_window",
    skiff_run_window,
    true,
    0,
    (rows: u64, bytes: u64),
    |call: Call, answer: &mut [u8]| call.window_report(rows, bytes).write_to(answer)
);
reading_call!(
    "skiff2_decode",
    skiff_decode,
    false,
    position,
    (
        position: u64,
        value_records: *mut u8,
        value_records_len: usize,
        payload: *mut u8,
        payload_len: usize
    ),
    |call: Call, answer: &mut [u8]| {
        let records = slice::from_raw_parts_mut(value_records, value_records_len);
        let payload = slice::from_raw_parts_mut(payload, payload_len);
        decoding::answer(call, decoding::Lent { records, payload, answer })
    }
);

reading_call!(
    "skiff2_build_index",
    skiff_build_index,
    true,
    0,
    (index: *mut u8, index_len: usize),
    |call: Call, answer: &mut [u8]| {
        indexing::build_answer(call, slice::from_raw_parts_mut(index, index_len), answer)
    }
);
reading_call!(
    "skiff2_check_index",
    skiff_check_index,
    true,
    0,
    (index: *const u8, index_len: usize),
    |call: Call, answer: &mut [u8]| {
        indexing::check_answer(call, slice::from_raw_parts(index, index_len), answer)
    }
);
reading_call!(
    "skiff2_extend_index",
    skiff_extend_index,
    true,
    0,
    (old: u64, index: *mut u8, index_len: usize),
    |call: Call, answer: &mut [u8]| {
        indexing::extend_answer(call, old, slice::from_raw_parts_mut(index, index_len), answer)
    }
);
reading_call!(
    "skiff2_decode_indexed",
    skiff_decode_indexed,
    true,
    0,
    (
        index: *const u8,
        index_len: usize,
        row: u64,
        value_records: *mut u8,
        value_records_len: usize,
        payload: *mut u8,
        payload_len: usize
    ),
    |call: Call, answer: &mut [u8]| {
        let records = slice::from_raw_parts_mut(value_records, value_records_len);
        let payload = slice::from_raw_parts_mut(payload, payload_len);
        let index = slice::from_raw_parts(index, index_len);
        indexing::row_answer(call, index, row, indexing::Lent { records, payload }, answer)
    }
);

/// # Safety
/// Each pointer leads to as many bytes as the length after it says.
#[export_name = "skiff2_encode"]
pub unsafe extern "C" fn skiff_encode(
    node_charge: u64,
    max_string32_bytes: u64,
    max_yson32_bytes: u64,
    max_row_bytes: u64,
    records: *const u8,
    records_len: usize,
    names: *const u8,
    names_len: usize,
    first: u64,
    count: u64,
    value_records: *const u8,
    value_records_len: usize,
    payload: *const u8,
    payload_len: usize,
    output: *mut u8,
    output_len: usize,
    position: u64,
    answer: *mut u8,
    answer_len: usize,
) -> u32 {
    let settings = Settings { node_charge, max_string32_bytes, max_yson32_bytes, max_row_bytes };
    let names = slice::from_raw_parts(names, names_len);
    let taken = naming::taken_store("encoder_does_not_look_at_names", names);
    let given = Given {
        settings: fault::taken(settings),
        records: slice::from_raw_parts(records, records_len),
        names: taken.as_deref().unwrap_or(names),
        block: Block { first, count },
        value_records: slice::from_raw_parts(value_records, value_records_len),
        payload: slice::from_raw_parts(payload, payload_len),
    };
    let output = slice::from_raw_parts_mut(output, output_len);
    let answer = slice::from_raw_parts_mut(answer, answer_len);
    let returned = encoding::encode_answer(given, output, position, answer);
    fault::carries_another_limit(&settings, answer);
    returned
}

/// # Safety
/// Each pointer leads to as many bytes as the length after it says.
#[export_name = "skiff2_check_value_table"]
pub unsafe extern "C" fn skiff_check_value_table(
    value_records: *const u8,
    value_records_len: usize,
    payload: *const u8,
    payload_len: usize,
    answer: *mut u8,
    answer_len: usize,
) -> u32 {
    let records = slice::from_raw_parts(value_records, value_records_len);
    let payload = slice::from_raw_parts(payload, payload_len);
    encoding::check_answer(records, payload, slice::from_raw_parts_mut(answer, answer_len))
}

/// # Safety
/// Each pointer leads to as many bytes as the length after it says.
#[export_name = "skiff2_check_format"]
pub unsafe extern "C" fn skiff_check_format(
    records: *const u8,
    records_len: usize,
    names: *const u8,
    names_len: usize,
    references: *const u8,
    references_len: usize,
    registry: *const u8,
    registry_len: usize,
    answer: *mut u8,
    answer_len: usize,
) -> u32 {
    let tables = FormatTables {
        records: slice::from_raw_parts(records, records_len),
        names: slice::from_raw_parts(names, names_len),
        references: slice::from_raw_parts(references, references_len),
        registry: slice::from_raw_parts(registry, registry_len),
    };
    let answer = slice::from_raw_parts_mut(answer, answer_len);
    checking::format_answer(&tables, answer)
}

/// # Safety
/// Each pointer leads to as many bytes as the length after it says.
#[export_name = "skiff2_check_encoder_schema"]
pub unsafe extern "C" fn skiff_check_encoder_schema(
    records: *const u8,
    records_len: usize,
    names: *const u8,
    names_len: usize,
    first: u64,
    count: u64,
    answer: *mut u8,
    answer_len: usize,
) -> u32 {
    let records = slice::from_raw_parts(records, records_len);
    let names = slice::from_raw_parts(names, names_len);
    let answer = slice::from_raw_parts_mut(answer, answer_len);
    checking::block_answer(records, names, Block { first, count }, answer)
}

/// # Safety
/// Each pointer leads to as many bytes as the length after it says.
#[export_name = "skiff2_parse"]
pub unsafe extern "C" fn skiff_parse(
    name: *const u8,
    name_len: usize,
    answer: *mut u8,
    answer_len: usize,
) -> u32 {
    let name = slice::from_raw_parts(name, name_len);
    let answer = slice::from_raw_parts_mut(answer, answer_len);
    checking::name_answer(name, answer)
}

/// # Safety
/// Each pointer leads to as many bytes as the length after it says.
#[export_name = "skiff2_value"]
pub unsafe extern "C" fn skiff_value(
    value_records: *const u8,
    value_records_len: usize,
    index: u64,
    answer: *mut u8,
    answer_len: usize,
) -> u32 {
    let records = slice::from_raw_parts(value_records, value_records_len);
    let answer = slice::from_raw_parts_mut(answer, answer_len);
    checking::value_answer(records, index, answer)
}
