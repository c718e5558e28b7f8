//! A spreadsheet of packets: a header row that names the columns, and a row for each packet. A sheet is taken whole or not at
//! all: every cell that is not as expected is told, by the row that a spreadsheet shows and the name of its column.

use crate::cell::{bytes, good, number, shown};
use csv::{ByteRecord, ReaderBuilder};
use std::borrow::Cow;
use std::fmt;

const COLUMNS: &str =
    "expected apid, count, id, args and, where there are pads, pads, separated by commas or by semicolons";

const NAMES: [&str; 5] = ["apid", "count", "id", "args", "pads"];

/// The most rows of a sheet, as spreadsheet programs have it. It bounds the memory that is asked for.
const MOST_ROWS: u64 = 1_048_576;

/// A sheet whose every cell is as expected.
#[derive(PartialEq, Eq, Debug)]
pub struct Sheet {
    pub rows: Vec<Row>,
    /// Whether semicolons separate the cells, as spreadsheets write them where the comma is kept for fractions.
    pub semicolons: bool,
}

/// What a row says of its packet.
#[derive(Clone, PartialEq, Eq, Debug)]
pub struct Row {
    /// The row's number as a spreadsheet shows it.
    pub number: u64,
    pub apid: u16,
    pub count: u16,
    pub id: u16,
    pub arguments: Vec<u8>,
    pub pads: u16,
}

impl Sheet {
    /// Reads a sheet, or tells all that is amiss with it.
    pub fn read(data: &[u8]) -> Result<Sheet, Vec<String>> {
        if data.starts_with(&[0xFF, 0xFE]) || data.starts_with(&[0xFE, 0xFF]) {
            return Err(vec!["the sheet is in UTF-16: expected UTF-8".to_string()]);
        }
        let data = data.strip_prefix(b"\xEF\xBB\xBF").unwrap_or(data);
        let semicolons = separated_by_semicolons(data);
        let mut records = Records::new(data, semicolons);
        let columns = match records.next()? {
            Some((row, header)) => Columns::read(row, header)?,
            None => return Err(vec![format!("no header row: {COLUMNS}")]),
        };
        let (mut rows, mut wrong) = (Vec::new(), Vec::new());
        while let Some((row, record)) = records.next()? {
            rows.extend(columns.row(row, record, &mut wrong));
        }
        // No cell that was taken has a quote in it, so that the quotes came in pairs, or the last of them was never closed.
        if wrong.is_empty() && data.iter().filter(|&&byte| byte == b'"').count() % 2 == 1 {
            let last = records.row - 1;
            wrong.push(format!("row {last}: a quote is opened and never closed"));
        }
        if wrong.is_empty() {
            Ok(Sheet { rows, semicolons })
        } else {
            Err(wrong)
        }
    }
}

/// Whether the header row, which is the first line that is not blank, has semicolons and no comma.
fn separated_by_semicolons(data: &[u8]) -> bool {
    let mut lines = data.split(|byte| matches!(byte, b'\r' | b'\n'));
    let header = lines.find(|line| !line.is_empty()).unwrap_or_default();
    header.contains(&b';') && !header.contains(&b',')
}

/// The rows of a sheet that are not blank, with their numbers.
struct Records<'a> {
    data: &'a [u8],
    reader: csv::Reader<&'a [u8]>,
    record: ByteRecord,
    /// The number of the row that comes next, blank or not.
    row: u64,
}

impl<'a> Records<'a> {
    fn new(data: &'a [u8], semicolons: bool) -> Records<'a> {
        let reader = ReaderBuilder::new()
            .has_headers(false)
            .flexible(true)
            .delimiter(if semicolons { b';' } else { b',' })
            .from_reader(data);
        Records {
            data,
            reader,
            record: ByteRecord::new(),
            row: 1,
        }
    }

    fn next(&mut self) -> Result<Option<(u64, &ByteRecord)>, Vec<String>> {
        let start = usize::try_from(self.reader.position().byte()).unwrap_or(usize::MAX);
        match self.reader.read_byte_record(&mut self.record) {
            Ok(true) => {
                let row = self.row + blank_rows(self.data, start);
                self.row = row + 1;
                if row > MOST_ROWS {
                    return Err(vec!["more than 1,048,576 rows".to_string()]);
                }
                Ok(Some((row, &self.record)))
            }
            Ok(false) => Ok(None),
            Err(told) => Err(vec![format!("row {}: {told}", self.row)]),
        }
    }
}

/// How many blank rows begin at `start`, where the row before has ended. The reader skips them, and it may end a row between
/// the two bytes of its line's end; its own count of lines also counts those inside a quoted cell, which begin no row.
fn blank_rows(data: &[u8], start: usize) -> u64 {
    let before = &data[..start.min(data.len())];
    let mut rest = &data[before.len()..];
    if before.ends_with(b"\r") {
        rest = rest.strip_prefix(b"\n").unwrap_or(rest);
    }
    let mut blank = 0;
    loop {
        let ends: [&[u8]; 3] = [b"\r\n", b"\n", b"\r"];
        match ends.iter().find_map(|end| rest.strip_prefix(*end)) {
            Some(behind) => rest = behind,
            None => return blank,
        }
        blank += 1;
    }
}

/// Where each column stands.
#[derive(Debug)]
struct Columns {
    apid: usize,
    count: usize,
    id: usize,
    args: usize,
    pads: Option<usize>,
    /// How many cells the header row has, and each other row has to have.
    cells: usize,
}

impl Columns {
    fn read(row: u64, header: &ByteRecord) -> Result<Columns, Vec<String>> {
        let names: Vec<String> = header
            .iter()
            .map(|name| text(name).trim().to_lowercase())
            .collect();
        let mut wrong = Vec::new();
        for name in names.iter().filter(|name| !NAMES.contains(&name.as_str())) {
            let name = shown(name);
            wrong.push(format!("row {row}: unknown column {name}: {COLUMNS}"));
        }
        let places = NAMES.map(|wanted| {
            let mut places = (0..names.len()).filter(|&place| names[place] == wanted);
            let (place, another) = (places.next(), places.next());
            if place.is_none() && wanted != "pads" {
                wrong.push(format!("row {row}: no column {wanted}: {COLUMNS}"));
            }
            if another.is_some() {
                wrong.push(format!("row {row}: more than one column {wanted}"));
            }
            place
        });
        match places {
            [Some(apid), Some(count), Some(id), Some(args), pads] if wrong.is_empty() => {
                Ok(Columns {
                    apid,
                    count,
                    id,
                    args,
                    pads,
                    cells: names.len(),
                })
            }
            _ => Err(wrong),
        }
    }

    /// A row's packet. What is amiss is appended to `wrong`, every cell of it.
    fn row(&self, row: u64, record: &ByteRecord, wrong: &mut Vec<String>) -> Option<Row> {
        if record.len() != self.cells {
            let (there, asked) = (cells(record.len()), self.cells);
            wrong.push(format!(
                "row {row}: {there}: expected {asked}, as in the header row"
            ));
            return None;
        }
        let cell = |place: usize| text(record.get(place).unwrap_or_default());
        let word = |place: usize| number(cell(place).trim());
        let at = |column: &'static str| Place { row, column };
        let apid = good(word(self.apid), &at("apid"), wrong);
        let count = good(word(self.count), &at("count"), wrong);
        let id = good(word(self.id), &at("id"), wrong);
        let arguments = good(bytes(cell(self.args).trim()), &at("args"), wrong);
        let pads = match self.pads {
            Some(place) if !cell(place).trim().is_empty() => good(word(place), &at("pads"), wrong),
            _ => Some(0),
        };
        Some(Row {
            number: row,
            apid: apid?,
            count: count?,
            id: id?,
            arguments: arguments?,
            pads: pads?,
        })
    }
}

/// Where a cell stands, as messages say it.
struct Place {
    row: u64,
    column: &'static str,
}

impl fmt::Display for Place {
    fn fmt(&self, f: &mut fmt::Formatter<'_>) -> fmt::Result {
        write!(f, "row {}, column {}", self.row, self.column)
    }
}

/// A cell's text. A byte that is not UTF-8 becomes a character that no cell may have.
fn text(cell: &[u8]) -> Cow<'_, str> {
    String::from_utf8_lossy(cell)
}

fn cells(number: usize) -> String {
    match number {
        1 => "1 cell".to_string(),
        _ => format!("{number} cells"),
    }
}

#[cfg(test)]
mod tests {
    use super::*;

    const HEADER: &str = "apid,count,id,args,pads\n";

    fn row(number: u64, id: u16, arguments: &[u8], pads: u16) -> Row {
        Row {
            number,
            apid: 1,
            count: 0,
            id,
            arguments: arguments.to_vec(),
            pads,
        }
    }

    fn rows(data: impl AsRef<[u8]>) -> Vec<Row> {
        Sheet::read(data.as_ref()).expect("the sheet is good").rows
    }

    fn wrong(data: impl AsRef<[u8]>) -> Vec<String> {
        Sheet::read(data.as_ref()).expect_err("the sheet is bad")
    }

    #[test]
    fn columns_stand_in_any_order_and_in_any_case() {
        let expected = [row(2, 100, &[2, 5], 1), row(3, 20, &[], 0)];
        let sheet = format!("{HEADER}1,0,100,02 05,1\n1,0,20,,\n");
        assert_eq!(rows(sheet), expected);
        let sheet = "\u{feff} Pads ,ARGS,\"id\",count, apid\r\n 0x1 ,0205, 0x64,0 ,1\r\n,, 20,0,1";
        assert_eq!(rows(sheet), expected);
        assert_eq!(rows("id,apid,count,args\n20,1,0,\n"), [row(2, 20, &[], 0)]);
    }

    #[test]
    fn semicolons_are_taken_where_the_header_has_no_comma() {
        let sheet = Sheet::read(b"apid;count;id;args\n1;0;20;02\n");
        let expected = Sheet {
            rows: vec![row(2, 20, &[2], 0)],
            semicolons: true,
        };
        assert_eq!(sheet, Ok(expected));
        let both = wrong("apid,count,id;args\n");
        assert_eq!(
            both[0],
            format!("row 1: unknown column \"id;args\": {COLUMNS}")
        );
    }

    #[test]
    fn rows_have_the_numbers_that_a_spreadsheet_shows() {
        // Blank rows count, whatever ends a line; a line that ends inside a quoted cell begins no row.
        let sheet =
            "||apid,count,id,\"args\r\n\"||1,0,20,\"02\r\n\"|1,0,20,02|||1,0,x,02|1,0,20,3||";
        for end in ["\n", "\r\n", "\r"] {
            let told = wrong(sheet.replace('|', end));
            assert_eq!(told.len(), 2, "{told:?}");
            assert!(told[0].starts_with("row 9, column id: \"x\""), "{told:?}");
            assert!(
                told[1].starts_with("row 10, column args: \"3\""),
                "{told:?}"
            );
        }
        let numbers = |sheet: &str| rows(sheet).iter().map(|row| row.number).collect::<Vec<_>>();
        let sheet = "apid,count,id,args\n\n1,0,20,02\n\n\n1,0,20,\n";
        assert_eq!(numbers(sheet), [3, 6]);
        assert_eq!(numbers(&sheet.replace('\n', "\r\n")), [3, 6]);
        assert_eq!(numbers(&sheet.replace('\n', "\r")), [3, 6]);
    }

    #[test]
    fn every_bad_cell_is_told() {
        let told = wrong(format!("{HEADER}1,0,20,,\nx,,65536,0,-1\n1,0,20,0G,0\n"));
        let places: Vec<&str> = told
            .iter()
            .map(|told| told.split(": ").next().unwrap_or(""))
            .collect();
        let expected =
            ["apid", "count", "id", "args", "pads"].map(|column| format!("row 3, column {column}"));
        assert_eq!(places[..5], expected);
        assert_eq!(places[5..], ["row 4, column args"]);
        assert!(told[1].starts_with("row 3, column count: empty: expected a number"));
    }

    #[test]
    fn columns_are_neither_guessed_nor_filled_in() {
        let told = wrong("apid,count,id,args,pad\n");
        assert_eq!(told, [format!("row 1: unknown column \"pad\": {COLUMNS}")]);
        let told = wrong("\napid,id,apid,args\n1,0,20,\n");
        let twice = "row 2: more than one column apid".to_string();
        assert_eq!(told, [twice, format!("row 2: no column count: {COLUMNS}")]);
        for nothing in ["", "\n\n", "\u{feff}"] {
            assert_eq!(wrong(nothing), [format!("no header row: {COLUMNS}")]);
        }
        assert_eq!(rows(HEADER), []);
    }

    #[test]
    fn a_row_has_as_many_cells_as_the_header() {
        let told = wrong(format!("{HEADER}1,0,20,02\n1,0,20,02,0,\n \n"));
        let expected = ["row 2: 4 cells", "row 3: 6 cells", "row 4: 1 cell"]
            .map(|start| format!("{start}: expected 5, as in the header row"));
        assert_eq!(told, expected);
    }

    #[test]
    fn a_sheet_has_as_many_rows_as_a_spreadsheet_program() {
        let blank = "\n".repeat(1_048_574);
        assert_eq!(rows(format!("{blank}{HEADER}1,0,20,,\n")).len(), 1);
        let told = wrong(format!("\n{blank}{HEADER}1,0,20,,\n"));
        assert_eq!(told, ["more than 1,048,576 rows"]);
    }

    #[test]
    fn what_is_cut_or_not_text_is_told() {
        let told = wrong(format!("{HEADER}1,0,20,,\n1,0,20,02,\"1"));
        assert_eq!(told, ["row 3: a quote is opened and never closed"]);
        let told = wrong([HEADER.as_bytes(), b"1,0,2\xFF0,,\n"].concat());
        assert!(
            told[0].starts_with("row 2, column id: \"2\u{fffd}0\" is no number"),
            "{told:?}"
        );
        let told = wrong(b"\xFF\xFEa\0p\0i\0d\0");
        assert_eq!(told, ["the sheet is in UTF-16: expected UTF-8"]);
    }
}
