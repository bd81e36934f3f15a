//! The texts at document 01's limits, the same in every run: each limit one short, met and one over.

use crate::spelling::{push_number, push_reference};

/// Document 01's "Texts to try", docs/DIFFERENCES.md's, and a few beside them; for ticket K6 infinite literals behind faults and
/// before them, and more than one.
#[rustfmt::skip]
const NAMED: [&str; 72] = [
    "", "*a", "x5/3/2o", "x4/2o", "x2*c", "x3*c", "x3/o", "x3", "x ", "(", "()", "(nan)", "x3_", "x4294967296o",
    "ooooooooo", "oooooooooo", "x4o", "o4x", "x6/2o", "(0)", "(-0)", "x4o3o", "x3*a", "x1o", "x3o3*a", "((", "(1",
    "x\t", "*a ", "*a3*a", "*-b3x", "x2*-c", "(1e23)", "(0e23)", "(1e0001)", "(1e999)", "(1e23)_", "\u{a0}x",
    "x\u{85}x", "(\u{e9})", "(1\u{e9})", "\u{e9}", "x3\u{e9}", "(\u{e9}1)", "x4o4o", "(inf)3o", "x4/6o",
    "x1(inf)", "x3/(inf)", "x3*(inf)", "_(inf)", "()(inf)", "(nan)(inf)", "(inf)(nan)", "(1e99)(inf)", "(inf)(1e99)",
    "x3*c(inf)", "x3o3*a(inf)", "x3o3*a3(inf)", "(inf)(", "(inf", "(inf)_", "(inf)3", "(inf)x1o", "(inf)3*c",
    "(inf)3o3*a", "(inf) ", "(inf)3(-Infinity)", "(Infinity)(inf)", "(inf)\u{e9}", "(\u{e9}inf)", "(inf\u{e9})",
];

pub fn all() -> Vec<Vec<u8>> {
    let mut texts: Vec<Vec<u8>> = NAMED.iter().map(|text| text.as_bytes().to_vec()).collect();
    edges(&mut texts);
    multiples(&mut texts);
    many_steps(&mut texts);
    literals(&mut texts);
    words(&mut texts);
    infinities(&mut texts);
    nodes(&mut texts);
    references(&mut texts);
    lengths(&mut texts);
    texts
}

/// Every edge of up to three parts, each at a limit, before every kind of byte.
fn edges(texts: &mut Vec<Vec<u8>>) {
    const PARTS: [&str; 11] =
        ["", "0", "1", "2", "3", "4", "03", "2147483648", "4294967294", "4294967295", "4294967296"];
    let mut runs: Vec<String> = PARTS.iter().map(|part| part.to_string()).collect();
    for two in 0..121 {
        runs.push(format!("{}/{}", PARTS[two / 11], PARTS[two % 11]));
        runs.extend(PARTS.iter().map(|part| format!("{}/{}/{part}", PARTS[two / 11], PARTS[two % 11])));
    }
    for run in &runs {
        texts.extend(["o", " o", "*a", "(1)", ""].map(|end| format!("x{run}{end}").into_bytes()));
    }
    for byte in 0..=255 {
        texts.extend([&b"x3"[..], b"x5/2", b"x3/", b"x3 "].map(|start| [start, &[byte, b'o']].concat()));
    }
}

const LARGEST: u64 = u32::MAX as u64;

/// Fractions of small terms, those of refusal 7 among them, both times a power of two or times the largest number that 32 bits
/// allow: before a node, in a loop, and before a missing node, which a two does not see.
fn multiples(texts: &mut Vec<Vec<u8>>) {
    for num in 1..=12 {
        for den in 1..=12 {
            let most = LARGEST / num.max(den);
            let powers = (0..32).map(|bits| 1 << bits).filter(|&power| power < most);
            for times in powers.chain([3, 15, 65535, 65537, most - 1, most]) {
                let (num, den) = (num * times, den * times);
                texts.extend(["o", "*a", "*z"].map(|end| format!("x{num}/{den}{end}").into_bytes()));
            }
        }
    }
}

/// Neighbouring Fibonacci numbers, which take Euclid's algorithm the most steps, and their multiples; every divisor of
/// 2^32 - 1; primes and products of two.
fn many_steps(texts: &mut Vec<Vec<u8>>) {
    let (mut a, mut b) = (1, 2);
    let mut fractions = Vec::new();
    while b <= LARGEST {
        let most = LARGEST / b;
        fractions.extend([(b, a), (b * most, a * most), (b * most, a * most - 1)]);
        (a, b) = (b, a + b);
    }
    for chosen in 0..32 {
        let primes = [3, 5, 17, 257, 65537].into_iter().enumerate();
        let divisor: u64 = primes.filter(|(i, _)| chosen >> i & 1 == 1).map(|(_, prime)| prime).product();
        fractions.extend([(LARGEST, divisor), (LARGEST, LARGEST - divisor)]);
    }
    let large =
        [4_294_967_291, 4_294_967_279, 2_147_483_647, 2_147_483_629, 65521 * 65519, 65521 * 65497, 65521, 65519, 2];
    fractions.extend(large.iter().flat_map(|&num| large.map(|den| (num, den))));
    texts.extend(fractions.iter().map(|(num, den)| format!("x{num}/{den}o").into_bytes()));
}

/// 14 to 16 digits with the point at every place, exponents of one to four digits, all powers about −22 and 22.
fn literals(texts: &mut Vec<Vec<u8>>) {
    for digits in ["0", "1", "9", "007", "99999999999999", "999999999999999", "9999999999999999", "0000000000000001"] {
        for point in 0..=digits.len() + 1 {
            let after = digits.len().saturating_sub(point) as i64;
            let number = match point {
                point if point > digits.len() => digits.to_string(),
                point => format!("{}.{}", &digits[..point], &digits[point..]),
            };
            for power in (-24..=-20_i64).chain(-1..=1).chain(20..=24) {
                let exponent = power + after;
                let sign = if exponent < 0 { "-" } else { "" };
                for width in 1..=4 {
                    texts.push(format!("({number}e{sign}{:0width$})3o", exponent.abs()).into_bytes());
                }
            }
            texts.extend(["", "+", "-"].map(|sign| format!("({sign}{number})").into_bytes()));
        }
    }
}

/// Words and numbers that are none, or nearly.
#[rustfmt::skip]
const WORDS: [&str; 37] = [
    "inf", "INF", "Infinity", "iNfInItY", "infinit", "infinityy", "in", "i", "infi", "infinf", "inf ", "(inf",
    "(infinity", "nan", "NaN", "nanx", "na", ".", "..", "1..2", "1.2.3", "e", "e5", ".e5", "1e", "1e+", "1e-", "1e5.",
    "1e5e5", "1 ", " 1", "--1", "+-1", "1-", "0x1", "1_0", "1f",
];

fn words(texts: &mut Vec<Vec<u8>>) {
    for word in WORDS {
        for sign in ["", "+", "-", " ", "+ ", "--"] {
            texts.extend(["", "o3"].map(|start| format!("{start}({sign}{word})").into_bytes()));
            texts.push(format!("x3({sign}{word})3o").into_bytes());
        }
    }
}

/// Every mixture of case of the two words, with every sign, as every node from the first to the eleventh: at the end, before a
/// fault and before a missing node.
fn infinities(texts: &mut Vec<Vec<u8>>) {
    for word in ["inf", "infinity"] {
        for upper in 0..1 << word.len() {
            let cased = |(i, byte): (usize, u8)| if upper >> i & 1 == 1 { byte.to_ascii_uppercase() } else { byte };
            let word: Vec<u8> = word.bytes().enumerate().map(cased).collect();
            for sign in ["", "+", "-"] {
                let literal = [b"(", sign.as_bytes(), &word, b")"].concat();
                for nodes in 0..11 {
                    let behind = |end: &[u8]| [&b"oooooooooo"[..nodes], &literal, end].concat();
                    texts.extend([behind(b""), behind(b"_"), behind(b"3*z")]);
                }
            }
        }
    }
}

#[rustfmt::skip]
const ENDS: [&str; 18] = [
    "", "x", "_", "(", " ", "3", "(1", "(nan)", "(1e23)", "x3*z", "*a3*-z", "x1x", "o3*a3*a", "(inf)", "(-Infinity)_",
    "1(inf)", "*a3*a3(inf)", "(inf)(inf)",
];

/// Eight to eleven nodes, then what may be at fault later, or sooner.
fn nodes(texts: &mut Vec<Vec<u8>>) {
    for count in 8..=11 {
        for node in ["o", "x3", "(1)", "(1e23)", "s ", "(inf)"] {
            for end in ENDS {
                texts.push((node.repeat(count) + end).into_bytes());
                texts.push(("o".repeat(count - 1) + node + end).into_bytes());
            }
        }
    }
}

/// Every reference, from both ends, before and behind zero to nine nodes, with and without an edge.
fn references(texts: &mut Vec<Vec<u8>>) {
    for count in 0..=9 {
        for k in 0..26 {
            for (from_end, edge) in [(false, "3"), (true, "3"), (false, "2"), (true, "2"), (false, ""), (true, "")] {
                let mut reference = Vec::new();
                push_reference(&mut reference, from_end, k);
                let nodes = vec![b'x'; count];
                texts.push([&nodes, edge.as_bytes(), &reference].concat());
                texts.push([&reference, edge.as_bytes(), &nodes].concat());
                texts.push([&reference, edge.as_bytes(), b"*a2*b3*a", &nodes].concat());
            }
        }
    }
}

#[rustfmt::skip]
const FILLED: [(&str, &str); 9] = [
    ("", " "), ("x", "\n"), ("x", "2*a"), ("x", "3"), ("x0", "0"), ("(", "0"), ("x3/", "3/"), ("(inf)", "2*a"),
    ("(Infinity", " "),
];

/// 253 to 258 bytes of spaces, of twos, of digits, and of a literal, that end well or do not.
fn lengths(texts: &mut Vec<Vec<u8>>) {
    for length in 253..=258_usize {
        for end in ["x", "x3o", "(", "_", "x3", "x ", "\u{e9}", "x3*c", "(inf)", "(-Infinity)"] {
            for (start, filler) in FILLED {
                let mut text = start.as_bytes().to_vec();
                while text.len() + filler.len() + end.len() <= length {
                    text.extend(filler.bytes());
                }
                text.extend(end.bytes());
                let missing = length.saturating_sub(text.len());
                text.splice(0..0, std::iter::repeat_n(b' ', missing));
                texts.push(text);
            }
        }
        let mut zeros = vec![b'0'; length - 2];
        zeros[0] = b'x';
        push_number(&mut zeros, 3);
        texts.push([&zeros[..], b"o"].concat());
    }
}
