//! Codes at the edges: switches at every alignment and with bounds at every limit, jumps to every near place, the longest
//! codes.
const TABLE: u8 = 0xaa;
const LOOKUP: u8 = 0xab;

/// The most bytes of a code.
const LONGEST: usize = 65_535;

fn is_wide(op: u8) -> bool {
    op == 0xc8 || op == 0xc9
}

/// So many nops, then a switch's byte with its pad bytes, then words.
fn switch(nops: usize, op: u8, words: &[i32]) -> Vec<u8> {
    let mut code = vec![0; nops];
    code.push(op);
    code.resize(code.len().next_multiple_of(4), 0x77);
    code.extend(words.iter().flat_map(|w| w.to_be_bytes()));
    code
}

fn every_cut(code: &[u8]) -> impl Iterator<Item = Vec<u8>> + '_ {
    (0..=code.len()).map(|cut| code[..cut].to_vec())
}

/// Both switches at every alignment, each with every cut, and then with a return after it.
fn cut_switches() -> Vec<Vec<u8>> {
    const MIN: i32 = i32::MIN;
    const MAX: i32 = i32::MAX;
    let bounds =
        [(MIN, MIN), (MIN, MIN + 2), (-1, 1), (0, 0), (MAX - 2, MAX), (MAX, MAX), (1, 0), (MAX, MIN), (MIN, MAX)];
    let mut codes = vec![];
    for nops in 0..5 {
        let jumps = |n: i64| (0..n).map(move |i| -(i.min(nops as i64) as i32));
        for (low, high) in bounds {
            let count = high as i64 - low as i64 + 1;
            let entries = jumps(if count < 10 { count } else { 0 });
            codes.push(switch(nops, TABLE, &[0, low, high].into_iter().chain(entries).collect::<Vec<_>>()));
        }
        for pairs in [0, 1, 3, -1, MIN, MAX] {
            let entries = jumps(if pairs < 10 { pairs as i64 } else { 0 }).flat_map(|jump| [jump ^ 0x5a5a, jump]);
            codes.push(switch(nops, LOOKUP, &[0, pairs].into_iter().chain(entries).collect::<Vec<_>>()));
        }
    }
    let ended = |code: &Vec<u8>| [&code[..], &[0xb1]].concat();
    codes.iter().flat_map(|code| every_cut(code).chain([ended(code)])).collect()
}

/// Every pair of bounds and every count at a limit, with room for a few entries and with a byte too few.
fn bounded_switches() -> Vec<Vec<u8>> {
    let mut limits = vec![i32::MIN, i32::MIN + 1, i32::MIN + 2, i32::MAX - 2, i32::MAX - 1, i32::MAX];
    limits.extend([-0x4000_0001, -0x4000_0000, 0x3fff_ffff, 0x4000_0000, -2, -1, 0, 1, 2, 3]);
    let mut codes = vec![];
    for nops in 0..4 {
        for low in &limits {
            for high in &limits {
                let code = switch(nops, TABLE, &[0, *low, *high, 0, 0, 0]);
                codes.push(code[..code.len() - 1].to_vec());
                codes.push(code);
            }
            let code = switch(nops, LOOKUP, &[0, *low, 0, 0, 0, 0]);
            codes.extend((0..12).map(|cut| code[..code.len() - cut].to_vec()));
        }
    }
    codes
}

fn jump(before: &[u8], op: u8, by: i32, after: &[u8]) -> Vec<u8> {
    let (four, two) = (by.to_be_bytes(), (by as i16).to_be_bytes());
    [before, &[op], if is_wide(op) { &four } else { &two }, after].concat()
}

/// Every jump to every place from before the code to past its end, and the largest jumps.
fn jumps() -> Vec<Vec<u8>> {
    let befores: [&[u8]; 4] = [&[], &[0x00], &[0x11, 0, 0], &[0x84, 0, 0, 0x00]];
    let far = [i32::MIN, i32::MAX, i32::MIN + 1, -65536, 65535, 65536, -32768, 32767];
    let mut codes = vec![];
    for op in (0x99..=0xa8).chain([0xc6, 0xc7, 0xc8, 0xc9]) {
        for before in befores {
            codes.extend((-8..14).map(|by| jump(before, op, by, &[0x10, 0x00, 0xb1])));
        }
        codes.extend(far.map(|by| jump(&[0x00], op, by, &[])));
    }
    codes
}

fn with(mut code: Vec<u8>, at: usize, bytes: &[u8]) -> Vec<u8> {
    code[at..at + bytes.len()].copy_from_slice(bytes);
    code
}

/// Codes of 65,534 and 65,535 bytes: nops, a last jump back to 0 and below, and a switch that just fits or just does not.
pub fn longest() -> Vec<Vec<u8>> {
    let mut codes = vec![];
    for n in [LONGEST - 1, LONGEST] {
        let nops = vec![0; n];
        let back = 5 - n as i32;
        codes.push(nops.clone());
        codes.push(with(nops.clone(), n - 3, &[0xa7, 0x80, 0x00]));
        for by in [back, back - 1] {
            codes.push(with(nops.clone(), n - 5, &jump(&[], 0xc8, by, &[])));
        }
        for more in [0, 1] {
            let entries = ((n - 16) / 4) as i32 + more;
            codes.push(with(nops.clone(), 0, &switch(0, TABLE, &[0, 5, 5 + entries - 1])));
            let pairs = ((n - 12) / 8) as i32 + more;
            codes.push(with(nops.clone(), 0, &switch(0, LOOKUP, &[0, pairs])));
        }
    }
    codes
}

pub fn short() -> Vec<Vec<u8>> {
    [cut_switches(), bounded_switches(), jumps()].concat()
}
