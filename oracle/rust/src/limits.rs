//! What the Rust does not tell of a text that it read, by document 01's rules: a tenth node, a literal outside the
//! port's range, and the edge whose reference is missing.

/// What stands for a node in a text: a node of its own, or a reference.
#[derive(Clone, Copy)]
enum Sort<'a> {
    Letter,
    Literal(&'a str),
    /// From either end: in both a node is missing exactly if there are not more than this.
    Reference(usize),
}

impl Sort<'_> {
    fn is_node(self) -> bool {
        !matches!(self, Self::Reference(_))
    }
}

/// A node or a reference, where its first byte is, and the run of digits before it, empty if there is no edge.
#[derive(Clone, Copy)]
struct Token<'a> {
    edge: &'a str,
    at: usize,
    sort: Sort<'a>,
}

/// The nodes and references of a text that was read without fault, perhaps but for an unfinished one at its end, which
/// is left out.
struct Tokens<'a> {
    text: &'a str,
    next: usize,
}

impl<'a> Iterator for Tokens<'a> {
    type Item = Token<'a>;

    fn next(&mut self) -> Option<Token<'a>> {
        let rest = &self.text[self.next..];
        let start = rest.find(|c: char| c == '(' || c == '*' || c.is_ascii_alphabetic())?;
        let node = &rest[start..];
        let (sort, len) = if let Some(literal) = node.strip_prefix('(') {
            let close = literal.find(')')?;
            (Sort::Literal(&literal[..close]), close + 2)
        } else if node.starts_with('*') {
            let letter = if node.starts_with("*-") { 2 } else { 1 };
            let k = usize::from(node.as_bytes().get(letter)? - b'a');
            (Sort::Reference(k), letter + 1)
        } else {
            (Sort::Letter, 1)
        };
        let at = self.next + start;
        self.next = at + len;
        Some(Token { edge: rest[..start].trim(), at, sort })
    }
}

/// Refusal 9 or 10 and its position, if the text has a literal outside the port's range or a tenth node. The Rust knows
/// neither limit, and goes on to what comes later. The text is one that was read without fault, perhaps but for an
/// unfinished node or edge at its end.
pub fn beyond(text: &str) -> Option<[usize; 2]> {
    let mut nodes = 0;
    for token in (Tokens { text, next: 0 }) {
        if let Sort::Literal(literal) = token.sort {
            if outside_the_range(literal) {
                return Some([9, token.at + literal.len()]);
            }
        }
        nodes += usize::from(token.sort.is_node());
        if nodes == 10 {
            return Some([10, token.at]);
        }
    }
    None
}

/// The place in the queue of the first edge, twos apart, that has a reference to a missing node. The text is one that
/// was read without fault.
pub fn missing(text: &str) -> Option<usize> {
    let tokens = || Tokens { text, next: 0 };
    let count = tokens().filter(|token| token.sort.is_node()).count();

    let (mut place, mut previous_exists) = (0, true);
    for token in tokens() {
        let exists = match token.sort {
            Sort::Reference(k) => k < count,
            _ => true,
        };
        if !token.edge.is_empty() {
            let both_exist = previous_exists && exists;
            if !both_exist && !is_two(token.edge) {
                return Some(place);
            }
            place += 1;
        }
        previous_exists = exists;
    }
    None
}

/// Of an edge's parts only the last two count; a single one is over 1.
fn is_two(edge: &str) -> bool {
    let mut parts = edge.rsplit('/').map(|part| part.parse::<u64>().unwrap());
    let last = parts.next().unwrap();
    parts.next().map_or(last == 2, |num| num == 2 * last)
}

/// Whether a literal that Rust can read has more than 15 digits, more than 3 exponent digits, or a power of ten
/// outside −22 to 22.
fn outside_the_range(literal: &str) -> bool {
    let number = literal.trim_start_matches(['+', '-']);
    if number.starts_with(|c: char| c.is_ascii_alphabetic()) {
        return false; // inf, infinity
    }
    let (digits, exponent) = number.split_once(['e', 'E']).unwrap_or((number, "0"));
    let count = digits.bytes().filter(u8::is_ascii_digit).count();
    let after_point = digits.split_once('.').map_or(0, |(_, after)| after.len() as i32);
    count > 15
        || exponent.trim_start_matches(['+', '-']).len() > 3
        || (exponent.parse::<i32>().unwrap() - after_point).abs() > 22
}
