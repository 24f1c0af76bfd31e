// A minimal host in Rust: checks a document by a type table, then lists the fields of the operation's own object. No crate is needed:
//
//   rustc --edition 2021 -O host/rust/main.rs -L native=build/native -l static=gateway -o build/host-rust
//   build/host-rust host/examples/T.table host/examples/D.graphql 3      (3: the number of the record of type Query)

use std::{env, fs, process, ptr};

extern "C" {
    fn gw_check(
        table: *const u8,
        table_len: usize,
        document: *const u8,
        document_len: usize,
        rows: *mut u32,
        rows_len: usize,
        report: *mut u32,
        report_len: usize,
    ) -> u32;
    fn gw_plan(
        table: *const u8,
        table_len: usize,
        document: *const u8,
        document_len: usize,
        operation: *const u8,
        operation_len: usize,
        plan: *mut u32,
        plan_len: usize,
        report: *mut u32,
        report_len: usize,
    ) -> u32;
    fn gw_walk(
        table: *const u8,
        table_len: usize,
        plan: *const u32,
        plan_len: usize,
        object: u32,
        blocks: *const u32,
        blocks_len: usize,
        variables: *const u8,
        variables_len: usize,
        pairs: *mut u32,
        pairs_len: usize,
        report: *mut u32,
        report_len: usize,
    ) -> u32;
}

// As in gateway.h.
const ROW_SIZE: usize = 7;
const ROWS_SIZE: usize = 14336;
const ROW_NAME_START: usize = 4;
const ROW_NAME_LENGTH: usize = 5;
const REPORT_SIZE: usize = 8;
const PLAN_SIZE: usize = 14338;
const PAIRS_SIZE: usize = 1024;
const VARIABLES_SIZE: usize = 64;

type Report = [u32; REPORT_SIZE];

/// The rows of a document that the table accepts, and how many there are; or the report of the refusal.
fn check(table: &[u8], document: &[u8]) -> Result<(Vec<u32>, u32), Report> {
    let (mut rows, mut report) = (vec![0; ROWS_SIZE], [0; REPORT_SIZE]);
    // Safety: every pointer comes with the length of its slice; the library reads and writes nothing beside them.
    let answer = unsafe {
        gw_check(
            table.as_ptr(),
            table.len(),
            document.as_ptr(),
            document.len(),
            rows.as_mut_ptr(),
            rows.len(),
            report.as_mut_ptr(),
            report.len(),
        )
    };
    if answer == 0 {
        Ok((rows, report[1]))
    } else {
        Err(report)
    }
}

/// The plan of the document's only operation.
fn plan(table: &[u8], document: &[u8]) -> Result<Vec<u32>, Report> {
    let (mut plan, mut report) = (vec![0; PLAN_SIZE], [0; REPORT_SIZE]);
    // Safety: as above; a name of length 0 may be null.
    let answer = unsafe {
        gw_plan(
            table.as_ptr(),
            table.len(),
            document.as_ptr(),
            document.len(),
            ptr::null(),
            0,
            plan.as_mut_ptr(),
            plan.len(),
            report.as_mut_ptr(),
            report.len(),
        )
    };
    if answer == 0 {
        Ok(plan)
    } else {
        Err(report)
    }
}

/// The pairs of response key and row of an object, for blocks of a plan; no variable is true.
fn walk(
    table: &[u8],
    plan: &[u32],
    object: u32,
    blocks: &[u32],
) -> Result<Vec<(u32, u32)>, Report> {
    let (mut pairs, mut report) = ([0u32; PAIRS_SIZE], [0; REPORT_SIZE]);
    let variables = [0u8; VARIABLES_SIZE];
    // Safety: as above.
    let answer = unsafe {
        gw_walk(
            table.as_ptr(),
            table.len(),
            plan.as_ptr(),
            plan.len(),
            object,
            blocks.as_ptr(),
            blocks.len(),
            variables.as_ptr(),
            variables.len(),
            pairs.as_mut_ptr(),
            pairs.len(),
            report.as_mut_ptr(),
            report.len(),
        )
    };
    if answer != 0 {
        return Err(report);
    }
    Ok(pairs
        .chunks(2)
        .take(report[1] as usize)
        .map(|pair| (pair[0], pair[1]))
        .collect())
}

fn run(table: &[u8], document: &[u8], object: u32) -> Result<(), Report> {
    let (rows, count) = check(table, document)?;
    println!("accepted, {count} rows");
    for (key, row) in walk(table, &plan(table, document)?, object, &[0])? {
        let row_at = &rows[ROW_SIZE * row as usize..];
        let start = row_at[ROW_NAME_START] as usize;
        let name = &document[start..start + row_at[ROW_NAME_LENGTH] as usize];
        println!("key {key}, row {row}: {}", String::from_utf8_lossy(name));
    }
    Ok(())
}

fn main() {
    let words: Vec<String> = env::args().collect();
    let [_, table, document, object] = words.as_slice() else {
        eprintln!("usage: host-rust TABLE DOCUMENT RECORD");
        process::exit(2);
    };
    let read = |path: &String| {
        fs::read(path).unwrap_or_else(|why| {
            eprintln!("{path}: {why}");
            process::exit(2);
        })
    };
    if let Err(report) = run(
        &read(table),
        &read(document),
        object.parse().unwrap_or(u32::MAX),
    ) {
        println!("refusal {}, shown {:?}", report[0], &report[1..]);
        process::exit(1);
    }
}
