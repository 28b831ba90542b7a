//! The shortest literals whose f32 differs if an f64 stands between: the decimal lies so near to a tie of two f32 that its f64 is that tie.

/// An odd number of 25 binary digits is halfway between two f32.
const LEAST: u128 = 1 << 24;

/// The decimals with so many places whose nearest f64 is a tie of two f32, but which aren't it: as whole numbers over 10 ^ places.
fn of_places(places: u32, below: u128) -> Vec<u128> {
    let ten = 10u128.pow(places);
    let mut found = Vec::new();
    for shift in 0..70u32 {
        // The tie odd / 2 ^ shift times 10 ^ places is at most `below`.
        for odd in (LEAST + 1..LEAST * 2).step_by(2) {
            let scaled = odd * ten;
            let near = (scaled + (1 << shift >> 1)) >> shift;
            if near >= below {
                break;
            }
            let off = (near << shift).abs_diff(scaled);
            if off != 0 && off <= scaled >> 53 && differs(near, places as usize) {
                found.push(near);
            }
        }
    }
    found.sort_unstable();
    found.dedup();
    found
}

fn text(number: u128, places: usize) -> String {
    let digits = format!("{number:0>width$}", width = places + 1);
    let (whole, part) = digits.split_at(digits.len() - places);
    if part.is_empty() { whole.to_string() } else { format!("{whole}.{part}") }
}

fn differs(number: u128, places: usize) -> bool {
    let text = text(number, places);
    text.parse::<f32>().expect("a decimal") != text.parse::<f64>().expect("a decimal") as f32
}

/// By the places after the point, with one digit before it; with fewer than 15 bytes before the suffix there is none.
pub fn print() {
    const TEN: u128 = 10;
    for places in 9..=14u32 {
        let found = of_places(places, TEN.pow(places + 1));
        println!("{places} places, below 10: {} literals", found.len());
        for number in found.iter().take(3) {
            let text = text(*number, places as usize);
            let (straight, between) = (text.parse::<f32>().expect("a decimal"), text.parse::<f64>().expect("a decimal") as f32);
            println!("  {text}f32  {} (0x{:08x}), through an f64 {} (0x{:08x})", straight.to_bits(), straight.to_bits(), between.to_bits(), between.to_bits());
        }
    }
}
