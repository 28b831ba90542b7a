use lekhyundo::{
    Constant, Float, Kind, Reader, Refusal, SIZE, Token, TokenCode, WIDTH, at, constant, decode, float, float_of, name, print, salvage, subtree,
    table_check, table_write, token_list,
};

const FLOAT: u64 = Kind::Float.number();
const F_STRING: u64 = Kind::FString.number();
const TEXT: u64 = Kind::Text.number();

fn refusal(number: u64, start: usize, end: usize) -> Refusal {
    Refusal { number, start, end, needed: 0 }
}

#[test]
fn a_tree_has_the_rows_of_document_01() {
    let mut reader = Reader::default();
    let rows: Vec<_> = reader.tree(b"const A: u8 = 1;").unwrap().rows().to_vec();
    assert_eq!(
        rows,
        [[1, 6, 7, 0, 0, 0, 1], [1, 9, 11, 0, 0, 0, 1], [2, 9, 11, 1, 0, 0, 2], [6, 9, 11, 1, 0, 0, 3], [10, 14, 15, 0, 1, 0, 1], [40, 0, 16, 3, 0, 0, 6], [43, 0, 16, 1, 0, 0, 7]]
    );
    assert_eq!(name(b"const A: u8 = 1;", &rows[0]), b"A");
    assert_eq!(name(b"const A: u8 = 1;", &rows[1]), b"u8");
    assert_eq!(name(b"const A: u8 = 1;", &rows[2]), b"");
    assert_eq!(name(b"const", &[1, 3, 9, 0, 0, 0, 1]), b"");
    // (d) doesn't look at the size.
    assert_eq!(name(b"const", &[1, 1, 3, 0, 0, 0, 9]), b"on");
    assert_eq!(name(b"const", &[1, 4, 3, 0, 0, 0, 1]), b"");
}

#[test]
fn a_size_spans_the_rows_of_a_subtree() {
    let rows: Vec<_> = Reader::default().tree(b"fn f(a: u8) { g(a, 1) } const A: u8 = 1;").unwrap().rows().to_vec();
    for (at, row) in rows.iter().enumerate() {
        let under = subtree(&rows, at);
        assert_eq!(under.len(), row[SIZE] as usize);
        assert_eq!(under.last(), Some(row));
        // The children, from the last back, are what is left of it without itself.
        let mut end = at;
        for _ in 0..row[3] {
            end -= subtree(&rows, end - 1).len();
        }
        assert_eq!(end + under.len(), at + 1);
        assert!(under.iter().all(|inner| row[1] <= inner[1] && inner[2] <= row[2]));
    }
    assert_eq!(subtree(&rows, rows.len() - 1), rows);
    assert_eq!(subtree(&rows, rows.len()), [[0; WIDTH]; 0]);
    assert_eq!(subtree(&[[1, 0, 1, 0, 0, 0, 2]], 0), [[0; WIDTH]; 0]);
}

#[test]
fn refusals_have_their_number_and_place() {
    let mut reader = Reader::default();
    for (source, number, start, end) in [
        (&b"a==b==c"[..], 6, 4, 6),
        (b"AS4294967296", 7, 0, 12),
        (b"1=2", 8, 0, 1),
        (b"", 11, 0, 0),
        (b"\xff", 2, 0, 1),
        (b"#!", 3, 0, 2),
        (b"f\"", 11, 2, 2),
        (b"f\"\\q\"", 7, 2, 4),
        (b"a f\"\"", 6, 2, 4),
        (b"$", 4, 0, 1),
    ] {
        assert_eq!(reader.expression(source).err(), Some(refusal(number, start, end)), "{source:?}");
    }
    assert_eq!(reader.expression(&[b'('; 33]).err(), Some(refusal(9, 32, 33)));
    assert_eq!(reader.tree(&[b' '; 65_536]).err(), Some(refusal(1, 65_535, 65_535)));
}

#[test]
fn a_value_is_any_number_that_its_suffix_holds() {
    let mut reader = Reader::default();
    let rows: Vec<_> = reader.expression(b"18446744073709551615u64").unwrap().rows().to_vec();
    assert_eq!(rows, [[10, 0, 23, 0, u64::MAX, 8, 1]]);
    assert_eq!(reader.expression(b"18446744073709551616u64").err(), Some(refusal(7, 0, 23)));
    assert_eq!(reader.expression(b"300u8").err(), Some(refusal(7, 0, 5)));
}

#[test]
fn an_address_may_end_in_a_dotted_quad() {
    let mut reader = Reader::default();
    let rows: Vec<_> = reader.expression(b"::ffff:1.2.3.4").unwrap().rows().to_vec();
    assert_eq!(rows, [[15, 0, 14, 0, 0, 0xffff_0102_0304, 1]]);
    assert_eq!(reader.expression(b"::256.0.0.0").err(), Some(refusal(7, 0, 11)));
    assert_eq!(reader.expression(b"::1.2").err(), Some(refusal(6, 4, 5)));
}

#[test]
fn an_f_string_has_its_texts_and_its_holes() {
    let mut reader = Reader::default();
    let rows: Vec<_> = reader.expression(br#"f"{{peer}} {x} down""#).unwrap().rows().to_vec();
    assert_eq!(
        rows,
        [[TEXT, 2, 11, 0, 7, 0, 1], [1, 12, 13, 0, 0, 0, 1], [2, 12, 13, 1, 0, 0, 2], [TEXT, 14, 19, 0, 5, 0, 1], [F_STRING, 0, 19, 3, 0, 0, 5]]
    );
    assert_eq!(reader.expression(b"f\"\"").unwrap().rows(), [[F_STRING, 0, 2, 0, 0, 0, 1]]);
    assert_eq!(token_list(b"f\"\""), Err(refusal(5, 0, 2)));
}

#[test]
fn no_room_says_how_much_is_needed() {
    let mut reader = Reader::with_room(2);
    let no_room = reader.expression(b"1+2").err();
    assert_eq!(no_room, Some(Refusal { number: 10, start: 0, end: 0, needed: 3 }));
    assert_eq!(Reader::with_room(3).expression(b"1+2").unwrap().rows().len(), 3);
}

#[test]
fn tokens_and_strings() {
    let (keyword, address) = (TokenCode::Keyword, TokenCode::Ipv6);
    assert_eq!(token_list(b"if ::1"), Ok(vec![Token { code: keyword, start: 0, end: 2 }, Token { code: address, start: 3, end: 6 }]));
    assert_eq!(token_list(b"'"), Err(refusal(4, 0, 1)));
    assert_eq!(decode(br#""a\u{e9}\n""#), Ok("a\u{e9}\n".as_bytes().to_vec()));
    assert_eq!(decode(b"\"a"), Err(refusal(7, 0, 2)));
    assert_eq!(decode(b""), Err(refusal(7, 0, 0)));
}

#[test]
fn a_float_has_the_width_of_its_suffix() {
    assert_eq!(float(b"0.1"), Ok(Float::F64(0.1)));
    assert_eq!(float(b"0.1f32"), Ok(Float::F32(0.1)));
    assert_eq!(float(b"1_000f64"), Ok(Float::F64(1000.0)));
    // Through an f64 it would be the even neighbour below.
    assert_eq!(float(b"16777217.00000000001f32"), Ok(Float::F32(16777218.0)));
    assert_eq!(float(b"1"), Err(refusal(7, 0, 1)));
    assert_eq!(float(b"1.5 "), Err(refusal(7, 0, 4)));
    assert_eq!(float(b""), Err(refusal(7, 0, 0)));
    assert_eq!(float(b"1.0000000000000000000"), Err(refusal(14, 0, 21)));
    assert_eq!(float(&[b'0'; 65_536]), Err(refusal(7, 0, 65_536)));
}

#[test]
fn a_row_of_a_float_has_its_number() {
    let source = b"const LIMIT: f32 = 0.1f32; const A: f64 = 0.00000000000000000001;";
    let mut reader = Reader::default();
    let tree = reader.tree(source).unwrap();
    let rows: Vec<_> = tree.rows().iter().filter(|row| row[0] == FLOAT).collect();
    assert_eq!(float_of(source, rows[0]), Ok(Float::F32(0.1)));
    assert_eq!(float_of(source, rows[1]), Err(refusal(14, 42, 64)));
    assert_eq!(float_of(source, &[1, 6, 11, 0, 0, 0, 1]), Err(refusal(7, 6, 11)));
    assert_eq!(float_of(source, &[FLOAT, 60, 90, 0, 0, 0, 1]), Err(refusal(7, 60, 90)));
    assert_eq!(float_of(source, &[FLOAT, 9, 8, 0, 0, 0, 1]), Err(refusal(7, 9, 8)));
}

#[test]
fn the_leaf_under_a_byte() {
    let mut reader = Reader::default();
    let mut rows: Vec<_> = reader.tree(b"const A: u8 = 1;").unwrap().rows().to_vec();
    assert_eq!(at(&rows, 6), Ok(0));
    // Each end is outside; the sign before the type and the whole line are in no leaf.
    assert_eq!(at(&rows, 7), Err(refusal(13, 0, 0)));
    assert_eq!(at(&rows, 10), Ok(1));
    assert_eq!(at(&rows, 14), Ok(4));
    assert_eq!(at(&rows, u64::MAX), Err(refusal(13, 0, 0)));
    assert_eq!(at(&[], 0), Err(refusal(13, 0, 0)));
    rows[4][SIZE] = 2;
    assert_eq!(at(&rows, 14), Err(refusal(12, 0, 0)));
    // The tree's row is skipped whole, with what stands under it.
    assert_eq!(at(&rows, 16), Err(refusal(13, 0, 0)));
}

#[test]
fn a_constant_has_its_value() {
    for (source, value) in [
        ("const A: i8 = -127 - 1;", Constant::Integer(-128)),
        ("const A: i8 = (-127 - 1) / -1;", Constant::Integer(-128)),
        ("const A: i64 = -9223372036854775807 - 1;", Constant::Integer(i64::MIN.into())),
        ("const A: u64 = 18446744073709551615u64;", Constant::Integer(u64::MAX.into())),
        ("const A: u64 = 0 - 1;", Constant::Integer(u64::MAX.into())),
        ("const A: u8 = 255 + 1;", Constant::Integer(0)),
        ("const A: f64 = -5.5 % 2.0;", Constant::Float(-1.5)),
        ("const A: f64 = 1.0 / 0.0;", Constant::Float(f64::INFINITY)),
        ("const A: bool = true && !false;", Constant::Bool(true)),
        ("const A: bool = -1 > 0;", Constant::Bool(false)),
    ] {
        assert_eq!(constant(source.as_bytes(), 0), Ok(value), "{source}");
    }
    let Ok(Constant::Float(nan)) = constant(b"const A: f64 = 0.0 / 0.0;", 0) else { panic!("a float") };
    assert!(nan.is_nan());
    assert_eq!(constant(b"const A: u8 = 1; fn f() {} const B: u8 = 2;", 1), Ok(Constant::Integer(2)));
}

#[test]
fn a_constant_is_refused_where_the_reason_stands() {
    for (source, number, start, end) in [
        ("", 15, 0, 0),
        ("const A: u8 = 1 2;", 6, 16, 17),
        ("const A: f32 = 1;", 15, 9, 12),
        ("const A: u8 = a;", 15, 14, 15),
        ("const A: i8 = -128;", 15, 15, 18),
        ("const A: bool = 1i64 == 1;", 15, 16, 20),
        ("const A: u8 = 12345678901234567890.0;", 14, 14, 36),
        ("const A: bool = true || 1 / 0 == 1;", 16, 24, 29),
    ] {
        assert_eq!(constant(source.as_bytes(), 0), Err(refusal(number, start, end)), "{source}");
    }
    let [longest, longer] = [511, 512].map(|more| format!("const A: u16 = 1{};", "+1".repeat(more)));
    assert_eq!(constant(longest.as_bytes(), 0), Ok(Constant::Integer(512)));
    assert_eq!(constant(longer.as_bytes(), 0), Err(refusal(15, 15, longer.len() - 1)));
    assert_eq!(constant(b"const A: u8 = 1;", u64::MAX), Err(refusal(15, 0, 0)));
}

#[test]
fn a_file_of_ours_is_accepted_with_its_rows() {
    for source in [&b""[..], b"const A: u8 = 1;", b"fn f() { import a; } fn g() {}", &b"import a;".repeat(7_281)] {
        let file = table_write(source).unwrap();
        let checked = table_check(&file).unwrap();
        assert_eq!(checked.source, source);
        assert_eq!(checked.rows, Reader::default().tree(source).unwrap().rows());
        assert_eq!(checked.tests, 0);
        assert_eq!(table_check(&file[..file.len() - 1]), Err(refusal(17, 0, 0)));
    }
    assert_eq!(table_write(b"const A"), Err(refusal(11, 7, 7)));
    assert_eq!(table_write(&[b' '; 65_536]), Err(refusal(1, 65_535, 65_535)));
}

/// A file of a source, rows of seven numbers and indexes.
fn file(source: &[u8], rows: &[[u64; WIDTH]], indexes: &[u32]) -> Vec<u8> {
    let count = |n: usize| (n as u32).to_le_bytes();
    let numbers: Vec<u8> = rows.iter().flatten().flat_map(|n| n.to_le_bytes()).collect();
    let indexed: Vec<u8> = indexes.iter().flat_map(|n| n.to_le_bytes()).collect();
    [&count(source.len())[..], source, &count(rows.len()), &numbers, &count(indexes.len()), &indexed].concat()
}

#[test]
fn a_test_is_refused_in_a_source_and_counted_in_a_file() {
    let source = b"test t{}";
    let at_word = refusal(6, 0, 4);
    assert_eq!(Reader::default().tree(source).err(), Some(at_word));
    assert_eq!(table_write(source), Err(at_word));
    assert_eq!(constant(b"const A: u8 = 1; test t{}", 0), Err(refusal(6, 17, 21)));
    let rows = [[1, 5, 6, 0, 0, 0, 1], [35, 6, 8, 0, 0, 0, 1], [42, 0, 8, 2, 0, 0, 3], [43, 0, 8, 1, 0, 0, 4]];
    let whole = file(source, &rows, &[2]);
    let checked = table_check(&whole).unwrap();
    assert_eq!((&checked.rows[..], checked.tests), (&rows[..], 1));
    assert_eq!(table_check(&file(b"test", &[], &[])), Err(refusal(11, 4, 4)));
}

#[test]
fn a_file_of_another_tool_is_accepted_only_if_it_is_ours() {
    let source = b"const A: u8 = 1;";
    let rows: Vec<_> = Reader::default().tree(source).unwrap().rows().to_vec();
    assert_eq!(file(source, &rows, &[5]), table_write(source).unwrap());
    for (bytes, number, start, end) in [
        (vec![], 17, 0, 0),
        (vec![0; 12], 18, 0, 1),
        ([0u32, u32::MAX, u32::MAX].map(u32::to_le_bytes).concat(), 17, 0, 0),
        // The source's own refusal comes before that of its rows, at a place in the source.
        (file(b"const", &[], &[]), 11, 5, 5),
        (file(&[b' '; 65_536], &[], &[]), 1, 65_535, 65_535),
        (file(source, &rows[..3], &[5]), 18, 3, 4),
        (file(source, &[&rows[..], &[[0; WIDTH]]].concat(), &[5]), 18, 7, 8),
        (file(source, &rows, &[]), 19, 0, 1),
        (file(source, &rows, &[4]), 19, 0, 1),
        (file(source, &rows, &[5, 6]), 19, 1, 2),
    ] {
        assert_eq!(table_check(&bytes), Err(refusal(number, start, end)), "{bytes:?}");
    }
    for row in 0..rows.len() {
        for number in 0..WIDTH {
            let mut other = rows.clone();
            other[row][number] += 1 << 32;
            assert_eq!(table_check(&file(source, &other, &[5])), Err(refusal(18, row, row + 1)));
        }
    }
}

#[test]
fn a_broken_source_keeps_its_good_declarations() {
    let source = b"fn f() {\nfn g() {}\n+ 1\nconst A: u8 = 256u8;\nimport a;";
    let salvage = salvage(source).unwrap();
    let said: Vec<_> = salvage.dropped.iter().map(|dropped| (dropped.range.clone(), dropped.refusal)).collect();
    assert_eq!(said, [(0..9, refusal(6, 9, 11)), (19..23, refusal(6, 19, 20)), (23..44, refusal(7, 37, 42))]);
    let mut text = source.to_vec();
    salvage.dropped.iter().for_each(|dropped| text[dropped.range.clone()].fill(b' '));
    assert_eq!(salvage.text.as_bytes(), text);
    assert_eq!(salvage.tree().root().children().map(|kept| kept.kind()).collect::<Vec<_>>(), [Kind::Fn, Kind::Import]);
    assert_eq!(salvage.rows, Reader::default().tree(&text).unwrap().rows());
}

#[test]
fn a_whole_source_is_kept_and_one_that_is_no_source_refused() {
    let whole = salvage(b"import a;").unwrap();
    assert_eq!((&whole.text[..], &whole.dropped[..]), ("import a;", &[][..]));
    assert_eq!(salvage(b"").unwrap().rows, [[43, 0, 0, 0, 0, 0, 1]]);
    assert_eq!(salvage(b"fn \x80"), Err(refusal(2, 3, 4)));
    assert_eq!(salvage(b"#!"), Err(refusal(3, 0, 2)));
    assert_eq!(salvage(&[b'x'; 65_536]), Err(refusal(1, 65_535, 65_535)));
}

#[test]
fn the_most_ranges_that_a_source_has_fit() {
    let words = b"fn\n".repeat(65_535 / 3);
    let salvage = salvage(&words).unwrap();
    assert_eq!(salvage.dropped.len(), 21_845);
    assert_eq!(salvage.dropped[21_844].refusal, refusal(11, 65_535, 65_535));
    assert_eq!(salvage.text.trim(), "");
    for (source, ranges) in [("x", 1), ("x\nfn", 2), ("x\nfn\nfn", 3), ("fn\nfn", 2)] {
        assert_eq!(crate::salvage(source.as_bytes()).unwrap().dropped.len(), ranges);
    }
}

#[test]
fn a_source_has_one_print() {
    let sources: [&[u8]; 3] = [b"fn f(){if (x{}+y{}) {}}", b"fn f ( )\n{ if ((x { }) + ((y{}))) { } // a\n}", b"fn f(){if(x{})+(y{}){}}"];
    for source in sources {
        assert_eq!(print(source).unwrap(), "fn f ( ) {\nif ( x {\n}\n) + ( y {\n}\n) {\n}\n}\n");
    }
    assert_eq!(print(b"").unwrap(), "");
    assert_eq!(print(b"test t {}").unwrap(), "test t {\n}\n");
}

#[test]
fn a_print_that_passes_a_limit_is_refused() {
    let prefixes = format!("const A:b={}({}a);", "!".repeat(16), "!".repeat(17));
    assert_eq!(print(prefixes.as_bytes()), Err(refusal(9, 78, 79)));
    let strings = |bytes| format!("const A:b=\"{}\";", "x".repeat(bytes));
    assert_eq!(print(strings(65_535 - 19).as_bytes()).map(|text| text.len()), Ok(65_535));
    assert_eq!(print(strings(65_535 - 18).as_bytes()), Err(refusal(1, 65_535, 65_535)));
    assert_eq!(print(b"const"), Err(refusal(11, 5, 5)));
    assert_eq!(print(&[128]), Err(refusal(2, 0, 1)));
}
