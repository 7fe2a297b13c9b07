//! The calls on M, the smallest file of the bench set: 47 bytes, with no safe.
use p12::{Number, Passed, Range, Refusal, Spoiled, Table, Upload};

const M: [u8; 47] = [
    0x30, 0x2D, 0x02, 0x01, 0x03, 0x30, 0x11, 0x06, 0x09, 0x2A, 0x86, 0x48, 0x86, 0xF7, 0x0D, 0x01, 0x07, 0x01, 0xA0, 0x04, 0x04, 0x02, 0x30, 0x00,
    0x30, 0x15, 0x30, 0x10, 0x30, 0x0B, 0x06, 0x09, 0x60, 0x86, 0x48, 0x01, 0x65, 0x03, 0x04, 0x02, 0x01, 0x04, 0x01, 0xAA, 0x04, 0x01, 0x55,
];

const LISTING: &str = "pfx 47 bytes, 13 elements
safes 0, bags 0, attributes 0
mac input 22..24, digest 43..44, salt 46..47, iterations 1
";

fn refusal<T>(number: Number, offset: usize) -> Result<T, Refusal> {
    Err(Refusal { number, offset })
}

/// A table that no reading gives, with something in every row.
fn painted() -> Table {
    let mut table = p12::read(&M).unwrap();
    table.elements = 7;
    table.safe_rows.iter_mut().for_each(|row| row.kind = 1);
    table.bag_rows.iter_mut().for_each(|row| row.has_set = 1);
    table.attribute_rows.iter_mut().for_each(|row| row.bag = 9);
    table
}

/// An element of these parts, of at most 255 bytes.
fn element(tag: u8, parts: &[&[u8]]) -> Vec<u8> {
    let body = parts.concat();
    let header = if body.len() < 0x80 { vec![tag] } else { vec![tag, 0x81] };
    [header, vec![u8::try_from(body.len()).unwrap()], body].concat()
}

/// M with a plain safe that holds a key bag: an empty SEQUENCE, with one localKeyID of one byte.
fn with_key() -> Vec<u8> {
    let data = &M[7..18];
    let id = [0x06, 0x09, 0x2A, 0x86, 0x48, 0x86, 0xF7, 0x0D, 0x01, 0x09, 0x15];
    let key = [0x06, 0x0B, 0x2A, 0x86, 0x48, 0x86, 0xF7, 0x0D, 0x01, 0x0C, 0x0A, 0x01, 0x01];
    let attribute = element(0x30, &[&id, &element(0x31, &[&[0x04, 0x01, 0x77]])]);
    let bag = element(0x30, &[&key, &element(0xA0, &[&[0x30, 0x00]]), &element(0x31, &[&attribute])]);
    let safe = element(0x30, &[data, &element(0xA0, &[&element(0x04, &[&element(0x30, &[&bag])])])]);
    let outer = element(0x30, &[data, &element(0xA0, &[&element(0x04, &[&element(0x30, &[&safe])])])]);
    element(0x30, &[&M[2..5], &outer, &M[24..]])
}

#[test]
fn reads_m() {
    let table = p12::read(&M).unwrap();
    assert_eq!((table.elements, table.safes().len(), table.bags().len(), table.attributes().len()), (13, 0, 0, 0));
    assert_eq!(table.mac_input, Range { start: 22, end: 24 });
    assert_eq!(table.mac.value.of(&M), Some(&[0xAA][..]));
    assert_eq!(table.mac_salt.of(&M), Some(&[0x55][..]));
    assert_eq!(table.mac_iterations(), 1);
    assert_eq!(p12::mac_input(&M), Ok(&M[22..24]));
}

#[test]
fn library_and_types_agree_on_the_words() {
    assert_eq!(p12::table_length(), p12::TABLE_LENGTH);
    assert_eq!(std::mem::size_of::<Table>(), 2 * p12::TABLE_LENGTH);
}

/// M with iterations, in as few bytes as they take.
fn with_iterations(number: u32) -> Vec<u8> {
    let bytes = number.to_be_bytes();
    let body = (0..4).map(|i| &bytes[i..]).rfind(|body| body[0] < 0x80 && body.len() * 8 > 32 - number.leading_zeros() as usize);
    let last = element(0x02, &[body.unwrap()]);
    element(0x30, &[&M[2..24], &element(0x30, &[&M[26..], &last])])
}

#[test]
fn reads_and_writes_both_halves_of_the_iterations() {
    for (number, low, high) in [(2, 2, 0), (65_535, 65_535, 0), (65_536, 0, 1), (100_000, 34_464, 1), (i32::MAX as u32, 65_535, 32_767)] {
        let file = with_iterations(number);
        let mut table = p12::read(&file).unwrap();
        assert_eq!((table.mac_iterations_low, table.mac_iterations_high, table.mac_iterations()), (low, high, number));
        let mut out = [0; 60];
        let written = table.write(&file, &mut out).unwrap();
        assert_eq!(out[..written], file);
        table.set_mac_iterations(1);
        assert_eq!(table.write(&file, &mut out), Ok(47));
        assert_eq!(out[..47], M);
        table.set_mac_iterations(number);
        assert_eq!(table, p12::read(&file).unwrap());
    }
    let mut table = p12::read(&M).unwrap();
    for number in [0, 1 << 31, u32::MAX] {
        table.set_mac_iterations(number);
        assert_eq!(table.write(&M, &mut [0; 60]), refusal(Number::NotSound, 0));
    }
}

#[test]
fn reads_no_other_words() {
    let mut table = painted();
    p12::read_into(&M, &mut table).unwrap();
    assert_eq!(table, p12::read(&M).unwrap());
}

#[test]
fn writes_m_back() {
    let table = p12::read(&M).unwrap();
    let mut out = [0xEE; 50];
    assert_eq!(table.write(&M, &mut out), Ok(47));
    assert_eq!(out[..47], M);
    assert_eq!(out[47..], [0xEE; 3]);
}

#[test]
fn lists_m() {
    assert_eq!(p12::listing(&M), LISTING);
    assert_eq!(p12::listing(&M[..46]), "refused 15 at 0\n");
}

#[test]
fn pairs_keys() {
    assert_eq!(p12::pair_lines(&M), "");
    assert_eq!(p12::pair_lines(&M[..46]), "refused 15 at 0\n");
    assert_eq!(p12::pair_lines(&with_key()), "key bag 0: refused 13\n");
}

#[test]
fn reads_a_key() {
    let file = with_key();
    let table = p12::read(&file).unwrap();
    assert_eq!(table.bags()[0].kind(), Some(p12::BagKind::Key));
    assert_eq!(table.bags()[0].enclosing(), None);
    let attributes = table.attributes_of(&file, 0).unwrap();
    assert_eq!(attributes, table.attributes());
    assert_eq!(p12::elements(&file, attributes[0].values).collect::<Vec<_>>(), [[0x04, 0x01, 0x77]]);
    assert_eq!(table.attribute(&file, 0, 1), Ok(None));
    assert_eq!(table.attribute(&file, 0, usize::MAX), Ok(None));
    assert_eq!(table.certificate_for(&file, 0), refusal(Number::NoCertificate, 0));
    assert_eq!(table.attribute(&file, 1, 0), refusal(Number::NoRow, 0));
    assert_eq!(table.certificate_for(&file, 1), refusal(Number::NoRow, 0));
}

#[test]
fn refused_reading_leaves_the_empty_table() {
    let mut version_4 = M;
    version_4[4] = 4;
    let longer = [M.as_slice(), &[0]].concat();
    let cases: [(&[u8], Number, usize); 4] =
        [(&[], Number::Missing, 0), (&M[..46], Number::Overrun, 0), (&longer, Number::LeftOver, 47), (&version_4, Number::Content, 2)];
    for (file, number, offset) in cases {
        let mut table = painted();
        assert_eq!(p12::read_into(file, &mut table), refusal(number, offset));
        assert_eq!(table, Table::default());
        assert_eq!(p12::mac_input(file), refusal(number, 0));
    }
    assert_eq!(p12::read(&[0; p12::FILE_BYTES + 1]), refusal(Number::TooLong, 0));
}

#[test]
fn refused_writing_leaves_the_buffer() {
    let table = p12::read(&M).unwrap();
    let mut out = [0xEE; 46];
    assert_eq!(table.write(&M, &mut out), refusal(Number::ShortBuffer, 0));
    assert_eq!(out, [0xEE; 46]);

    let mut unsound = table;
    unsound.mac_salt.end = 48;
    let mut out = [0xEE; 50];
    assert_eq!(unsound.write(&M, &mut out), refusal(Number::NotSound, 0));
    assert_eq!(Table::default().write(&M, &mut out), refusal(Number::NotSound, 0));
    assert_eq!(out, [0xEE; 50]);
    assert_eq!(unsound.attribute(&M, 0, 0), refusal(Number::NotSound, 0));
    assert_eq!(unsound.certificate_for(&M, 0), refusal(Number::NotSound, 0));
}

#[test]
fn refused_listing_leaves_the_buffer() {
    let mut out = vec![0xEE; LISTING.len() - 1];
    assert_eq!(p12::list(&M, &mut out), refusal(Number::ShortBuffer, 0));
    assert!(out.iter().all(|byte| *byte == 0xEE));
    out.push(0xEE);
    assert_eq!(p12::list(&M, &mut out), Ok(LISTING.len()));
    assert_eq!(out, LISTING.as_bytes());
}

#[test]
fn refused_pairs_leave_the_buffer() {
    let (file, due) = (with_key(), "key bag 0: refused 13\n");
    let mut out = vec![0xEE; due.len() - 1];
    assert_eq!(p12::pairs(&file, &mut out), refusal(Number::ShortBuffer, 0));
    assert!(out.iter().all(|byte| *byte == 0xEE));
    out.push(0xEE);
    assert_eq!(p12::pairs(&file, &mut out), Ok(due.len()));
    assert_eq!(out, due.as_bytes());
    assert_eq!(p12::pairs(&M, &mut []), Ok(0));
}

#[test]
fn refusals_are_told() {
    assert_eq!(p12::read(&M[..46]).unwrap_err().to_string(), "refused 15 at 0");
}

fn spoiled<T>(number: Number, offset: usize, after: usize) -> Result<T, Spoiled> {
    Err(Spoiled { refusal: Refusal { number, offset }, after })
}

#[test]
fn uploads_m_in_portions() {
    for most in 1..=M.len() {
        let mut upload = Upload::begin(M.len());
        for portion in M.chunks(most) {
            assert_eq!(upload.end(), spoiled(Number::Early, 0, upload.end().unwrap_err().after));
            assert_eq!(upload.take(portion), Ok(()));
        }
        assert_eq!(upload.take(&[]), Ok(()));
        assert_eq!(upload.end(), Ok(Passed { elements: 12, level: 5 }));
        assert_eq!(upload.take(&M[..1]), spoiled(Number::Surplus, 0, 48));
    }
}

#[test]
fn reports_a_spoiled_upload_at_once_and_ever_after() {
    let mut upload = Upload::begin(46);
    assert_eq!(upload.take(&M[..1]), Ok(()));
    assert_eq!(upload.take(&M[1..2]), spoiled(Number::Overrun, 0, 2));
    assert_eq!(upload.take(&M[2..]), spoiled(Number::Overrun, 0, 2));
    assert_eq!(upload.end(), spoiled(Number::Overrun, 0, 2));
    assert_eq!(Upload::begin(0).status(), spoiled(Number::Missing, 0, 0));
    assert_eq!(Upload::begin(65_536).status(), spoiled(Number::TooLong, 0, 0));
}

/// M, wrapped.
const TEXT: &str = "-----BEGIN PKCS12-----
MC0CAQMwEQYJKoZIhvcNAQcBoAQEAjAAMBUwEDALBglghkgBZQMEAgEEAaoEAVU=
-----END PKCS12-----
";

#[test]
fn exports_and_imports_m() {
    assert_eq!(p12::export(&M), Ok(TEXT.to_string()));
    assert_eq!(p12::import(TEXT.as_bytes()).as_deref(), Ok(M.as_slice()));
    for size in (1..=100).chain([p12::FILE_BYTES - 1, p12::FILE_BYTES]) {
        let bytes: Vec<u8> = M.iter().copied().cycle().take(size).collect();
        let text = p12::export(&bytes).unwrap();
        assert_eq!(p12::import(text.as_bytes()), Ok(bytes));
    }
    assert_eq!(p12::export(&[0; p12::FILE_BYTES]).unwrap().len(), p12::TEXT_BYTES);
}

#[test]
fn refuses_what_is_no_text() {
    let (text, size, ends) = (TEXT.as_bytes(), TEXT.len(), TEXT.replace('\n', "\r\n"));
    let cases: [(&[u8], usize); 4] = [(b"", 0), (&M, 0), (&text[..size - 1], size - 1), (ends.as_bytes(), 22)];
    for (given, offset) in cases {
        assert_eq!(p12::import(given), refusal(Number::NotText, offset));
    }
    assert_eq!(p12::import(&[text, b"\n"].concat()), refusal(Number::NotText, size));
    assert_eq!(p12::export(&[]), refusal(Number::NotText, 0));
}

#[test]
fn refuses_what_is_too_long() {
    assert_eq!(p12::export(&[0; p12::FILE_BYTES + 1]), refusal(Number::TooLong, 0));
    let (full, left) = ("A".repeat(64) + "\n", "A".repeat(22) + "==\n"); // 65,536 zeros: 1,365 lines, and 16 more
    let text = [&TEXT[..23], &full.repeat(1365), &left, &TEXT[TEXT.len() - 21..]].concat();
    assert_eq!(p12::import(text.as_bytes()), refusal(Number::TooLong, 0));
}

#[test]
fn refused_import_and_export_leave_the_buffer() {
    let mut out = vec![0xEE; TEXT.len() - 1];
    assert_eq!(p12::export_into(&M, &mut out), refusal(Number::ShortBuffer, 0));
    assert_eq!(p12::import_into(TEXT.as_bytes(), &mut out[..46]), refusal(Number::ShortBuffer, 0));
    assert_eq!(p12::import_into(&TEXT.as_bytes()[1..], &mut out), refusal(Number::NotText, 4));
    assert!(out.iter().all(|byte| *byte == 0xEE));
    assert_eq!(p12::import_into(TEXT.as_bytes(), &mut out), Ok(47));
    assert_eq!((&out[..47], &out[47..50]), (M.as_slice(), [0xEE; 3].as_slice()));
    out.push(0xEE);
    assert_eq!(p12::export_into(&M, &mut out), Ok(TEXT.len()));
    assert_eq!(out, TEXT.as_bytes());
}
