//! Every refusal that the crate can give, once with its number, its fields and its words. 12 is not
//! among them: the crate's buffers are long enough.

use std::{collections::HashSet, error::Error};

use lexicon::{Cd, CdError, CdResult, Cox, Record, Shelf};

const SPACES: [u8; 256] = [b' '; 256];

/// Texts that are refused with 1 to 11 and 23, in the order of these numbers.
fn refused_texts() -> [(&'static [u8], CdError); 12] {
    let (num, den, pos) = (u32::MAX - 1, u32::MAX, 21);
    [
        (&SPACES, CdError::TooLong { pos: 255 }),
        (b"x3\xe9", CdError::NotAscii { pos: 2 }),
        (b"x3(1", CdError::MismatchedParenthesis { pos: 4 }),
        (b"x3", CdError::UnexpectedEnding { pos: 2 }),
        (b"x3/o", CdError::ParseError { pos: 2 }),
        (b"(nan)", CdError::InvalidSymbol { pos: 3 }),
        (
            b"x4294967294/4294967295o",
            CdError::InvalidEdge { num, den, pos },
        ),
        (b"x3o3*a", CdError::RepeatEdge { a: 1, b: 0 }),
        (b"x3(1e23)", CdError::OutOfRange { pos: 6 }),
        (b"xxxxxxxxx3(1)", CdError::TooManyNodes { pos: 10 }),
        (b"x2*c3o3*c", CdError::MissingNode { edge: 1 }),
        (b"x3(-Infinity)", CdError::InfiniteLength { pos: 11 }),
    ]
}

#[test]
fn texts_by_every_call_that_reads_one() {
    for (number, (bytes, refusal)) in (1..=11).chain([23]).zip(refused_texts()) {
        assert_eq!(Cd::parse_bytes(bytes).unwrap_err(), refusal);
        assert_eq!(refusal.number(), number);
        if let Ok(text) = std::str::from_utf8(bytes) {
            assert_eq!(Cd::parse(text).unwrap_err(), refusal);
            assert_eq!(text.parse::<Cd>().unwrap_err(), refusal);
            assert_eq!(Cox::parse(text).unwrap_err(), refusal);
        }
        let wished = Cd::parse_with_infinite(bytes);
        assert_eq!(wished.err(), (number != 23).then_some(refusal));
    }
}

#[test]
fn are_hashed_by_their_fields() {
    let texts = ["x3", "x4", "x ", "x3/o", "x1o", "o1o", "x1/1o", "x0o"];
    let refusals: HashSet<CdError> = texts.map(|text| Cd::parse(text).unwrap_err()).into();
    assert_eq!(refusals.len(), 5); // the first three are one, x1o and o1o another
}

#[test]
fn texts_in_words() {
    let words = [
        "CD too long at position 255",
        "non-ASCII byte at position 2",
        "mismatched parenthesis at position 4",
        "CD ended unexpectedly at position 2",
        "parsing failed at position 2",
        "invalid symbol found at position 3",
        "invalid edge 4294967294/4294967295 at position 21",
        "repeat edge between 1 and 0",
        "number out of range at position 6",
        "too many nodes at position 10",
        "missing node in edge 1",
        "infinite length at position 11",
    ];
    assert_eq!(refused_texts().map(|(_, e)| e.to_string()), words);
}

#[test]
fn texts_of_the_specification() {
    let refused = |text| Cd::parse(text).unwrap_err();
    assert_eq!(refused(""), CdError::UnexpectedEnding { pos: 0 });
    assert_eq!(refused("x "), CdError::UnexpectedEnding { pos: 2 });
    assert_eq!(refused("("), CdError::MismatchedParenthesis { pos: 1 });
    assert_eq!(refused("x(1"), CdError::MismatchedParenthesis { pos: 3 });
    assert_eq!(refused("()"), CdError::ParseError { pos: 1 });
    assert_eq!(refused("x3_"), CdError::InvalidSymbol { pos: 2 });
    assert_eq!(refused("x3\to"), CdError::InvalidSymbol { pos: 2 });
    assert_eq!(refused("x4294967296o"), CdError::ParseError { pos: 10 });
    assert_eq!(refused("x3*c"), CdError::MissingNode { edge: 0 });
    let (num, den, pos) = (1, 1, 1);
    assert_eq!(refused("x1o"), CdError::InvalidEdge { num, den, pos });
}

/// An edge that is kept is in lowest terms; one that is refused is not.
#[test]
fn an_edge_is_shown_as_typed() {
    for (text, num, den, pos) in [
        ("x4/6o", 4, 6, 3),
        ("x3o6/6o", 6, 6, 5),
        ("x2147483648/3221225472o", 1 << 31, 3 << 30, 21),
    ] {
        let refusal = Cd::parse(text).unwrap_err();
        assert_eq!(refusal, CdError::InvalidEdge { num, den, pos });
        let words = format!("invalid edge {num}/{den} at position {pos}");
        assert_eq!(refusal.to_string(), words);
    }
}

#[test]
fn records() {
    let length = Record::from_bytes(&[0; 369]).unwrap_err();
    assert_eq!((length, length.number()), (CdError::RecordLength, 13));
    assert_eq!(length.to_string(), "record not 370 bytes long");

    let nothing = Record::from_bytes(&[1; 370]).unwrap_err();
    assert_eq!((nothing, nothing.number()), (CdError::NoDiagram, 14));
    let words = "record not the layout of any diagram: bad count, kind, value, fraction or filler";
    assert_eq!(nothing.to_string(), words);

    let mut bytes = *Cd::parse("xo").unwrap().record().as_bytes();
    bytes[1..19].rotate_left(9); // the two nodes exchanged
    let turned = Record::from_bytes(&bytes).unwrap_err();
    assert_eq!((turned, turned.number()), (CdError::NotSmallest, 22));
    let words =
        "record well laid out, but not the smallest numbering: file the figure's text again";
    assert_eq!(turned.to_string(), words);

    bytes[369] = 1; // 14 is tested before 22
    assert_eq!(Record::from_bytes(&bytes), Err(CdError::NoDiagram));
}

#[test]
fn mirrors_and_walls_and_what_needs_them() -> CdResult<()> {
    let refusal = CdError::Crowded { column: 2 };
    // 15 comes before 16, so the infinite length goes unseen.
    for text in ["x6o3o", "x4o4o", "(inf)4o4o"] {
        let cd = Cd::parse_with_infinite(text)?;
        assert_eq!(cd.cox().normals(), Err(refusal));
        assert_eq!(cd.cox().walls(), Err(refusal));
        assert_eq!(cd.generator(), Err(refusal));
        assert_eq!(cd.wall_generator(), Err(refusal));
        assert_eq!(cd.circumradius(), Err(refusal));
        assert_eq!(cd.reflections(), Err(refusal));
    }
    let cycle = Cd::parse_with_infinite("(inf)3o3o3*a")?;
    assert_eq!(cycle.wall_generator(), Err(refusal));
    let words = "mirror or wall 2 does not fit in spherical space";
    assert_eq!((refusal.number(), &refusal.to_string()[..]), (15, words));
    Ok(())
}

#[test]
fn infinite_lengths() -> CdResult<()> {
    let refusal = CdError::Infinite { node: 1 };
    let cd = Cd::parse_with_infinite("x3(-inf)3(inf)")?;
    assert_eq!(cd.generator(), Err(refusal));
    assert_eq!(cd.wall_generator(), Err(refusal));
    assert_eq!(cd.circumradius(), Err(refusal));
    let words = "infinite length at node 1";
    assert_eq!((refusal.number(), &refusal.to_string()[..]), (16, words));
    Ok(())
}

#[test]
fn families() {
    let refusal = Cox::a(0).unwrap_err();
    assert_eq!((refusal, refusal.number()), (CdError::NoFamily, 17));
    assert_eq!(refusal.to_string(), "no family of this letter and size");
}

#[test]
fn shelves() {
    let length = Shelf::new([0; 369]).unwrap_err();
    assert_eq!((length, length.number()), (CdError::ShelfLength, 18));
    let words = "no shelf file, or a cut one: length no multiple of 370";
    assert_eq!(length.to_string(), words);

    let place = Shelf::new([0; 740]).unwrap_err();
    assert_eq!(place, CdError::ShelfPlace { place: 1 });
    assert_eq!(place.number(), 19);
    let words =
        "shelf file wrong at place 1: record unreadable, or not greater than the one before";
    assert_eq!(place.to_string(), words);

    let mut shelf = Shelf::new([0; 370]).unwrap();
    let present = shelf.add(&Cd::parse("*a").unwrap().record()).unwrap_err();
    assert_eq!(present, CdError::OnShelf { place: 0 });
    assert_eq!(present.number(), 20);
    let words = "record already on the shelf, at place 0";
    assert_eq!(present.to_string(), words);
}

/// After the refusals of texts, which leave no `Cd` to ask.
#[test]
fn names() -> CdResult<()> {
    let refusal = CdError::NoName { node: 2 };
    for text in ["x3o x5/2o", "xx(inf)4o4o"] {
        let cd = Cd::parse_with_infinite(text)?;
        assert_eq!(cd.groups(), Err(refusal));
    }
    let words = "no name of a finite group fits the component of node 2";
    assert_eq!((refusal.number(), &refusal.to_string()[..]), (21, words));
    assert_eq!((refusal.fields(), refusal.position()), (vec![2], None));
    Ok(())
}

/// No call of this crate gives 12, which has its case all the same.
#[test]
fn short_buffers() {
    assert_eq!(CdError::ShortBuffer.number(), 12);
    assert_eq!(CdError::ShortBuffer.to_string(), "buffer too short");
}

#[test]
fn are_errors_that_threads_may_pass_on() {
    let count = |text: &str| -> Result<usize, Box<dyn Error + Send + Sync>> {
        Ok(text.parse::<Cd>()?.node_count())
    };
    assert_eq!(count("x3o").unwrap(), 2);
    let refusal = count("x3").unwrap_err();
    assert_eq!(
        refusal.downcast_ref(),
        Some(&CdError::UnexpectedEnding { pos: 2 })
    );
}
