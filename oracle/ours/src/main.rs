//! Our own code behind the protocol: the compiled Rattle library, called as C calls it.

use lekhyundo::{
    MOST_BYTES, MOST_RANGES, MOST_ROWS,
    sys::{self, Entry, Token},
};
use protocol::{
    Case, Constant, NotThere, Printed, Refusal, WIDTH, serve, time, write_bytes, write_constant, write_no_room, write_pair, write_printed,
    write_refusal, write_row,
};

mod list;
mod word;

const ZERO: Token = Token { code: 0, start: 0, end: 0 };
const UNSET: Token = Token { code: 77, start: 7, end: 7 };

fn tokens(source: &[u8], list: &mut [Token]) -> [u64; 4] {
    let mut out = [u64::MAX; 4];
    // SAFETY: each pointer is to that many elements, and the library keeps none.
    unsafe {
        sys::lekhyundo_token_list(source.as_ptr(), source.len(), list.as_mut_ptr(), list.len(), out.as_mut_ptr(), out.len())
    };
    out
}

fn count(source: &[u8], room: usize) -> [u64; 4] {
    let mut out = [u64::MAX; 4];
    // SAFETY: as above.
    unsafe { sys::lekhyundo_tokens(source.as_ptr(), source.len(), room, out.as_mut_ptr(), out.len()) };
    out
}

fn step(source: &[u8], at: usize) -> [u64; 5] {
    let mut out = [u64::MAX; 5];
    // SAFETY: as above.
    unsafe { sys::lekhyundo_step(source.as_ptr(), source.len(), at, out.as_mut_ptr(), out.len()) };
    out
}

/// (c): the list, written over what is no token; and again without a list, and token by token, each step from the last
/// token's end.
fn token_list(case: &Case<'_>, out: &mut String) {
    // No source has more tokens than bytes.
    let mut list = vec![UNSET; case.room.min(case.source.len() as u64 + 2) as usize];
    let answer = tokens(case.source, &mut list);
    let [number, start, end, count_said] = answer;
    let written = if number == 0 { count_said as usize } else { 0 };
    if list[written..].iter().any(|token| *token != ZERO) || count(case.source, list.len()) != answer {
        out.push_str("the rest is not zeros, or the count is another\n");
    }
    let count = count_said;
    match number {
        0 => out.push_str(&format!("accepted {count}\n")),
        10 => write_no_room(out, count),
        _ => write_refusal(out, Refusal { number, start, end }),
    }
    let place_fits = match number {
        0 => (start, end) == (0, case.source.len() as u64),
        10 => (start, end) == (0, 0),
        _ => count == 0,
    };
    if !place_fits {
        out.push_str(&format!("number {number} has place {start} {end}, count {count}\n"));
    }
    if !(1..=3).contains(&number) {
        let trouble = walk(case.source, [number, start, end, count], &list, out);
        out.extend(trouble);
    }
}

/// Prints the tokens of an accepted list. What the steps and the list say must agree, and a token's word must be
/// its text's; where not, the answer gains a line that no oracle writes.
fn walk(source: &[u8], list: [u64; 4], written: &[Token], out: &mut String) -> Option<String> {
    let (mut at, mut seen) = (0, 0);
    loop {
        let [number, start, end, code, word] = step(source, at);
        if number != 0 {
            let same = match number {
                11 => list[0] == 0 || list[0] == 10,
                _ => list[..3] == [number, start, end],
            };
            let counted = if number == 11 { seen } else { 0 };
            return (!same || counted != list[3] || (code, word) != (0, 0))
                .then(|| format!("steps end in {number} {start} {end} {code} {word} after {seen}\n"));
        }
        if list[0] == 0 {
            let Token { code, start, end } = written[seen as usize];
            write_row(out, &[code, start as u64, end as u64]);
        }
        let text = source.get(start as usize..end as usize).filter(|text| !text.is_empty());
        if (start as usize) < at || text.is_none_or(|text| word::number(code, text) != Some(word)) {
            return Some(format!("step from {at}: {start} {end} {code} has word {word}\n"));
        }
        (at, seen) = (end as usize, seen + 1);
    }
}

fn read(entry: Entry, source: &[u8], table: &mut [u64]) -> [u64; 4] {
    let mut out = [u64::MAX; 4];
    // SAFETY: as above.
    unsafe { entry(source.as_ptr(), source.len(), table.as_mut_ptr(), table.len(), out.as_mut_ptr(), out.len()) };
    out
}

/// (a) and (b), into a table that is not zeros before, with numbers behind the last whole row. What is left must be zeros.
fn rows(case: &Case<'_>, out: &mut String) {
    let entry = if case.entry == b'a' { sys::lekhyundo_tree } else { sys::lekhyundo_expression };
    // No source has more than three rows to two bytes, and one.
    let room = case.room.min(case.source.len() as u64 * 3 / 2 + 2) as usize;
    let mut table = vec![0xa5u64; room * WIDTH + case.source.len() % WIDTH];
    let answer = read(entry, case.source, &mut table);
    let [number, start, end, count] = answer;
    let written = if number == 0 { count as usize * WIDTH } else { 0 };
    match number {
        0 => {
            out.push_str(&format!("accepted {count}\n"));
            table[..written].chunks_exact(WIDTH).for_each(|row| write_row(out, row));
        }
        10 => write_no_room(out, count),
        _ => write_refusal(out, Refusal { number, start, end }),
    }
    if table[written..].iter().any(|&number| number != 0) {
        out.push_str("the rest is not zeros\n");
    }
}

/// (e), into bytes that are not zero before.
fn decode(case: &Case<'_>, out: &mut String) {
    let mut bytes = vec![0xa5u8; case.room.min(1 << 17) as usize];
    let mut answer = [u64::MAX; 4];
    // SAFETY: each pointer is to that many elements, and the library keeps none.
    unsafe {
        sys::lekhyundo_decode(
            case.source.as_ptr(), case.source.len(), bytes.as_mut_ptr(), bytes.len(), answer.as_mut_ptr(), answer.len(),
        )
    };
    write_lent(answer, &bytes, case.room, out);
}

/// The answer of what writes to lent bytes. What is left of them must be zeros.
fn write_lent([number, start, end, count]: [u64; 4], bytes: &[u8], room: u64, out: &mut String) {
    let used = if number == 0 { count as usize } else { 0 };
    match number {
        0 => write_bytes(out, Ok(&bytes[..used]), room),
        10 => write_no_room(out, count),
        _ => write_refusal(out, Refusal { number, start, end }),
    }
    if bytes[used..].iter().any(|&byte| byte != 0) {
        out.push_str("the rest is not zeros\n");
    }
}

/// C-17: the bits of a float literal; a refusal has no width and no bits, and the place is all bytes either way.
fn float(case: &Case<'_>, out: &mut String) {
    let mut answer = [u64::MAX; 5];
    // SAFETY: as above.
    unsafe { sys::lekhyundo_float(case.source.as_ptr(), case.source.len(), answer.as_mut_ptr(), answer.len()) };
    let [number, start, end, width, bits] = answer;
    let found = if number == 0 { Ok((width, bits)) } else { Err(Refusal { number, start, end }) };
    write_pair(out, found);
    if (start, end) != (0, case.source.len() as u64) || number != 0 && (width, bits) != (0, 0) {
        out.push_str(&format!("number {number} has place {start} {end}, width {width}, bits {bits}\n"));
    }
}

/// C-15: the leaf of a table, its numbers in decimal with blanks between, that holds the byte at the position, which stands where others
/// have the room.
fn node(case: &Case<'_>, out: &mut String) {
    let number = |text: &[u8]| std::str::from_utf8(text).ok().and_then(|text| text.parse::<u64>().ok());
    let words = case.source.split(|byte| !byte.is_ascii_digit()).filter(|word| !word.is_empty());
    let table: Vec<u64> = words.filter_map(number).collect();
    let mut answer = [u64::MAX; 4];
    // SAFETY: as above.
    unsafe { sys::lekhyundo_at(table.as_ptr(), table.len(), case.room, answer.as_mut_ptr(), answer.len()) };
    match answer {
        [0, start, end, index] => out.push_str(&format!("accepted {index} {start} {end}\n")),
        [number, start, end, _] => write_refusal(out, Refusal { number, start, end }),
    }
}

/// C-18: a constant's value, into a table and a list that are not zeros before. Accepted: the table is the tree's, the list what the rows give, then
/// zeros; refused: zeros in both.
fn constant(case: &Case<'_>, out: &mut String) {
    // No constant has more instructions than rows, nor more than 1,024.
    let room = case.rows.min(case.source.len() as u64 * 3 / 2 + 2) as usize;
    let mut table = vec![0xa5u64; room * WIDTH + case.source.len() % WIDTH];
    let mut list = vec![0xa5u64; case.list.min(1_030) as usize * 5 + case.source.len() % 5];
    let mut answer = [u64::MAX; 7];
    // SAFETY: as above.
    unsafe {
        sys::lekhyundo_constant(
            case.source.as_ptr(), case.source.len(), case.room, table.as_mut_ptr(), table.len(), list.as_mut_ptr(), list.len(),
            answer.as_mut_ptr(), 6,
        )
    };
    let [number, start, end, count, kind, bits, behind] = answer;
    write_constant(out, match number {
        0 => Ok(valued(kind, bits)),
        10 => Err(NotThere::NoRoom(count)),
        _ => Err(NotThere::Refused(Refusal { number, start, end })),
    });
    let place_fits = match number {
        0 => (start, end) == (0, case.source.len() as u64),
        10 => (start, end, kind, bits) == (0, 0, 0, 0),
        _ => (count, kind, bits) == (0, 0, 0),
    };
    let (mut rows, mut instructions) = (vec![0; table.len()], vec![0; list.len()]);
    if number == 0 {
        read(sys::lekhyundo_tree, case.source, &mut rows);
        let float = |start, end| float_bits(&case.source[start as usize..end as usize]);
        let expected = list::expected(&rows, case.room, kind, &float);
        instructions[..expected.len()].copy_from_slice(&expected);
        if expected.len() as u64 != count * 5 {
            out.push_str(&format!("{count} instructions, not {}\n", expected.len() / 5));
        }
    }
    if !place_fits || behind != u64::MAX || table != rows || list != instructions {
        out.push_str(&format!("number {number} has place {start} {end}, count {count}; or what is left in a table is something else\n"));
    }
}

/// The value of a type by the 64 bits of the answer.
fn valued(kind: u64, bits: u64) -> Constant {
    match kind {
        1..=4 => Constant::Integer((bits as i64).into()),
        5..=8 => Constant::Integer(bits.into()),
        10 => Constant::Float(f64::from_bits(bits)),
        _ => Constant::Bool(bits == 1),
    }
}

fn float_bits(literal: &[u8]) -> u64 {
    let mut answer = [u64::MAX; 5];
    // SAFETY: as above.
    unsafe { sys::lekhyundo_float(literal.as_ptr(), literal.len(), answer.as_mut_ptr(), answer.len()) };
    answer[4]
}

/// C-21: a file checked, in a table with room for all rows that its source can have.
fn check(case: &Case<'_>, out: &mut String) {
    let mut table = vec![0xa5u64; (case.source.len() * 3 / 2 + 3) * WIDTH];
    let mut answer = [u64::MAX; 5];
    // SAFETY: as above.
    unsafe {
        sys::lekhyundo_table_check(
            case.source.as_ptr(), case.source.len(), table.as_mut_ptr(), table.len(), answer.as_mut_ptr(), answer.len(),
        )
    };
    let [number, start, end, rows, tests] = answer;
    let found = if number == 0 { Ok((rows, tests)) } else { Err(Refusal { number, start, end }) };
    write_pair(out, found);
    let written = if number == 0 { rows as usize * WIDTH } else { 0 };
    if table[written..].iter().any(|&number| number != 0) || number != 0 && (rows, tests) != (0, 0) {
        out.push_str(&format!("the rest is not zeros, or number {number} has counts {rows} {tests}\n"));
    }
}

/// C-21: the file of a source, in bytes that are not zero before.
fn write(case: &Case<'_>, out: &mut String) {
    let most = case.source.len() * 3 / 2 + 2;
    let mut table = vec![0xa5u64; most * WIDTH];
    // No file has more declarations than bytes in its source.
    let mut bytes = vec![0xa5u8; case.room.min((12 + 5 * case.source.len() + 8 * WIDTH * most) as u64) as usize];
    let mut answer = [u64::MAX; 4];
    // SAFETY: as above.
    unsafe {
        sys::lekhyundo_table_write(
            case.source.as_ptr(), case.source.len(), table.as_mut_ptr(), table.len(), bytes.as_mut_ptr(), bytes.len(),
            answer.as_mut_ptr(), answer.len(),
        )
    };
    write_lent(answer, &bytes, case.room, out);
}

/// The numbers of a range: its ends, its refusal's number and place.
const RANGE: usize = 5;

fn salvaged(source: &mut [u8], table: &mut [u64], ranges: &mut [u64]) -> [u64; 5] {
    let mut answer = [u64::MAX; 5];
    // SAFETY: as above.
    unsafe {
        sys::lekhyundo_salvage(
            source.as_mut_ptr(), source.len(), table.as_mut_ptr(), table.len(), ranges.as_mut_ptr(), ranges.len(), answer.as_mut_ptr(),
            answer.len(),
        )
    };
    answer
}

/// C-23: a broken source, in tables that are not zeros before, with numbers behind the last whole row and range. What is left of both must be
/// zeros, and in the source the bytes of the ranges must be spaces and all others what they were.
fn salvage(case: &Case<'_>, out: &mut String) {
    let length = case.source.len();
    let mut text = case.source.to_vec();
    // No source has more than three rows to two bytes, and one, nor more than a range to three bytes, and one.
    let mut table = vec![0xa5u64; case.room.min(length as u64 * 3 / 2 + 2) as usize * WIDTH + length % WIDTH];
    let mut ranges = vec![0xa5u64; case.list.min(length as u64 / 3 + 2) as usize * RANGE + length % RANGE];
    let [number, start, end, count, dropped] = salvaged(&mut text, &mut table, &mut ranges);
    let (rows, listed) = if number == 0 { (count as usize, dropped as usize) } else { (0, 0) };
    let mut left = case.source.to_vec();
    match number {
        0 => {
            out.push_str(&format!("accepted {rows} {listed}\n"));
            for range in ranges[..listed * RANGE].chunks_exact(RANGE) {
                left[range[0] as usize..range[1] as usize].fill(b' ');
                out.push_str("range ");
                write_row(out, range);
            }
            table[..rows * WIDTH].chunks_exact(WIDTH).for_each(|row| write_row(out, row));
        }
        10 => {
            write_no_room(out, count);
            left = with_room(case.source);
        }
        _ => write_refusal(out, Refusal { number, start, end }),
    }
    let place_fits = match number {
        0 => (start, end) == (0, length as u64),
        10 => (start, end, dropped) == (0, 0, 0),
        _ => (count, dropped) == (0, 0),
    };
    let zeros = table[rows * WIDTH..].iter().chain(&ranges[listed * RANGE..]).all(|&number| number == 0);
    if !place_fits || !zeros || text != left {
        out.push_str(&format!("number {number} has place {start} {end}, counts {count} {dropped}; or what is left is something else\n"));
    }
}

/// What is left of a source where there is room for all.
fn with_room(source: &[u8]) -> Vec<u8> {
    let mut text = source.to_vec();
    let most = source.len() * 3 / 2 + 2;
    salvaged(&mut text, &mut vec![0; most * WIDTH], &mut vec![0; most * RANGE]);
    text
}

/// The numbers of the plan for each row.
const PLAN: usize = 4;

fn printed(source: &[u8], table: &mut [u64], plan: &mut [u64], text: &mut [u8]) -> [u64; 5] {
    let mut answer = [u64::MAX; 5];
    // SAFETY: as above.
    unsafe {
        sys::lekhyundo_print(
            source.as_ptr(), source.len(), table.as_mut_ptr(), table.len(), plan.as_mut_ptr(), plan.len(), text.as_mut_ptr(), text.len(),
            answer.as_mut_ptr(), answer.len(),
        )
    };
    answer
}

/// C-20: the print of a source, in tables and bytes that are not zeros before, with numbers behind the last whole row of both. What is left of all three
/// must be zeros, but for the rows of an accepted source, which are (a)'s where it has no test.
fn print(case: &Case<'_>, out: &mut String) {
    let length = case.source.len();
    let most = length * 3 / 2 + 2;
    let mut table = vec![0xa5u64; most * WIDTH + length % WIDTH];
    let mut plan = vec![0xa5u64; most * PLAN + length % PLAN];
    let mut text = vec![0xa5u8; case.room.min(MOST_BYTES as u64 + 1) as usize];
    let [number, start, end, count, tests] = printed(case.source, &mut table, &mut plan, &mut text);
    let bytes = if number == 0 { count as usize } else { 0 };
    let found = match number {
        0 => Ok(Printed { text: String::from_utf8_lossy(&text[..bytes]).into_owned(), tests }),
        _ => Err(Refusal { number, start, end }),
    };
    match number {
        10 => write_no_room(out, count),
        _ => write_printed(out, found, case.room),
    }
    let place_fits = match number {
        0 => (start, end) == (0, length as u64),
        10 => (start, end, tests) == (0, 0, 0),
        _ => (count, tests) == (0, 0),
    };
    let mut rows = vec![0; table.len()];
    if number == 0 && tests == 0 {
        read(sys::lekhyundo_tree, case.source, &mut rows);
    }
    if !place_fits || tests == 0 && table != rows || plan.iter().any(|&number| number != 0) || text[bytes..].iter().any(|&byte| byte != 0) {
        out.push_str(&format!("number {number} has place {start} {end}, counts {count} {tests}; or what is left in a table is something else\n"));
    }
    if number == 0 && !prints_back(case.source, &table, &text[..bytes]) {
        out.push_str("the print has another tree or another print\n");
    }
}

/// Whether a print is its own print and has the rows of its source but for their places, and the same text at each name and literal.
fn prints_back(source: &[u8], rows: &[u64], print: &[u8]) -> bool {
    let (mut table, mut text) = (vec![0; rows.len()], vec![0; print.len()]);
    let answer = printed(print, &mut table, &mut vec![0; rows.len()], &mut text);
    let leaf = |text: &[u8], row: &[u64]| match row[0] {
        1 | 10..=17 | 47 => text[row[1] as usize..row[2] as usize].to_vec(),
        _ => Vec::new(),
    };
    let same = |[ours, again]: [&[u64]; 2]| {
        (ours[0], &ours[3..], leaf(source, ours)) == (again[0], &again[3..], leaf(print, again))
    };
    answer[0] == 0 && text == print && rows.chunks_exact(WIDTH).zip(table.chunks_exact(WIDTH)).all(|(ours, again)| same([ours, again]))
}

/// Into a list of exactly the tokens that there are.
fn time_tokens(arguments: &[String]) -> std::io::Result<()> {
    let list = std::cell::RefCell::new(Vec::new());
    let made = |source: &[u8]| tokens(source, &mut list.borrow_mut())[3];
    let count = |source: &[u8]| {
        let count = made(source);
        list.borrow_mut().resize(count as usize, ZERO);
        count
    };
    time(arguments, count, |source| {
        made(source);
    })
}

/// Into a table of exactly the rows that there are.
fn time_trees(arguments: &[String]) -> std::io::Result<()> {
    let table = std::cell::RefCell::new(Vec::new());
    let made = |source: &[u8]| read(sys::lekhyundo_tree, source, &mut table.borrow_mut())[3];
    let count = |source: &[u8]| {
        let count = made(source);
        table.borrow_mut().resize(count as usize * WIDTH, 0);
        count
    };
    time(arguments, count, |source| {
        made(source);
    })
}

/// Into tables with room for anything; what is counted are the dropped ranges.
fn time_salvages(arguments: &[String]) -> std::io::Result<()> {
    let tables = std::cell::RefCell::new((vec![0; MOST_ROWS * WIDTH], vec![0; MOST_RANGES * RANGE]));
    let made = |source: &[u8]| {
        let (table, ranges) = &mut *tables.borrow_mut();
        let most = (source.len() * 3 / 2 + 1).min(MOST_ROWS) * WIDTH;
        salvaged(&mut source.to_vec(), &mut table[..most], ranges)[4]
    };
    time(arguments, made, |source| {
        made(source);
    })
}

/// Into tables of exactly the rows that there are, and a text with room for any print; what is counted are the print's bytes.
fn time_prints(arguments: &[String]) -> std::io::Result<()> {
    let tables = std::cell::RefCell::new((Vec::new(), Vec::new(), vec![0; MOST_BYTES]));
    let made = |source: &[u8]| {
        let (table, plan, text) = &mut *tables.borrow_mut();
        printed(source, table, plan, text)[3]
    };
    let count = |source: &[u8]| {
        let rows = read(sys::lekhyundo_tree, source, &mut [])[3] as usize;
        let (table, plan, _) = &mut *tables.borrow_mut();
        table.resize(rows * WIDTH, 0);
        plan.resize(rows * PLAN, 0);
        printed(source, table, plan, &mut vec![0; MOST_BYTES])[3]
    };
    time(arguments, count, |source| {
        made(source);
    })
}

fn main() -> std::io::Result<()> {
    let arguments: Vec<String> = std::env::args().skip(1).collect();
    match arguments.first().map(String::as_str) {
        Some("tokens") => time_tokens(&arguments[1..]),
        Some("trees") => time_trees(&arguments[1..]),
        Some("prints") => time_prints(&arguments[1..]),
        Some("salvages") => time_salvages(&arguments[1..]),
        _ => serve(|case, out| match case.entry {
            b'a' | b'b' => rows(case, out),
            b'c' => token_list(case, out),
            b'f' => float(case, out),
            b'k' => constant(case, out),
            b'n' => node(case, out),
            b'p' => print(case, out),
            b's' => salvage(case, out),
            b't' => check(case, out),
            b'w' => write(case, out),
            _ => decode(case, out),
        }),
    }
}
