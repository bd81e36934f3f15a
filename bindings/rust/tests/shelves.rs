//! Shelves: files that are checked, searched and added to, or refused, and what is kept of damaged
//! ones.

use std::{collections::HashSet, thread};

use lexicon::{Cd, CdError, CdResult, PlaceMark, Record, Rescue, Shelf};

/// Figures by rising record. The second, fourth and so on are on [`shelf`]; the others would stand
/// before all, between any two, and after all.
const RISING: [&str; 9] = [
    "*a", "o", "x", "s", "x3o", "x4o", "x4o3o", "x3o4o", "x3o3o3o",
];

fn record(text: &str) -> Record {
    Cd::parse(text).unwrap().record()
}

fn records() -> Vec<Record> {
    RISING.map(record).into()
}

fn on_shelf() -> Vec<Record> {
    records().into_iter().skip(1).step_by(2).collect()
}

/// The records one after another, whether they rise or not.
fn bytes(records: &[Record]) -> Vec<u8> {
    records
        .iter()
        .flat_map(|record| *record.as_bytes())
        .collect()
}

fn shelf() -> Shelf {
    Shelf::new(bytes(&on_shelf())).unwrap()
}

/// Bytes that tell no figure.
fn damaged() -> Record {
    Record::from_trusted_bytes(&[255; Record::LEN])
}

/// Bytes that tell a figure under another numbering than the filed one.
fn turned() -> Record {
    let mut bytes = *record("xo").as_bytes();
    bytes[1..19].rotate_left(9); // the two nodes exchanged
    Record::from_trusted_bytes(&bytes)
}

#[test]
fn the_figures_rise() {
    assert!(records().is_sorted_by(|a, b| a < b));
}

#[test]
fn an_empty_file_is_a_shelf() -> CdResult<()> {
    let empty = Shelf::default();
    assert_eq!(Shelf::new([]), Ok(empty.clone()));
    assert_eq!((empty.places(), empty.is_empty()), (0, true));
    assert_eq!((empty.record(0), empty.records().next()), (None, None));
    assert_eq!(empty.as_bytes(), []);
    for record in records() {
        assert_eq!(empty.find(&record), Ok(Err(0)));
        let mut one = empty.clone();
        assert_eq!(one.add(&record), Ok(0));
        assert_eq!(one, Shelf::new(*record.as_bytes())?);
        assert_eq!((one.places(), one.is_empty()), (1, false));
    }
    Ok(())
}

#[test]
fn has_its_records_in_order() {
    let (shelf, records) = (shelf(), on_shelf());
    assert_eq!(shelf.places(), 4);
    assert!(!shelf.is_empty());
    assert!(shelf.records().eq(records.iter().copied()));
    assert!(shelf.records().rev().eq(records.iter().rev().copied()));
    assert_eq!(shelf.records().len(), 4);
    for (place, &record) in records.iter().enumerate() {
        assert_eq!(shelf.record(place), Some(record));
    }
    assert_eq!((shelf.record(4), shelf.record(usize::MAX)), (None, None));
}

#[test]
fn keeps_the_bytes_of_its_file() {
    let (shelf, bytes) = (shelf(), bytes(&on_shelf()));
    assert_eq!(shelf.as_bytes(), bytes);
    assert_eq!(shelf.as_ref(), bytes);
    assert_eq!(Shelf::new(shelf.as_bytes()), Ok(shelf.clone()));
    assert_eq!(format!("{shelf:?}"), "Shelf { places: 4, .. }");
    let shelves = HashSet::from([shelf.clone(), Shelf::default(), shelf.clone()]);
    assert_eq!(shelves.len(), 2);

    let at = bytes.as_ptr();
    let taken = Shelf::new(bytes).unwrap().into_bytes();
    assert_eq!((taken.as_ptr(), taken), (at, shelf.into_bytes())); // nothing was copied
}

/// Also of a file whose first place is wrong: the length is tested first.
#[test]
fn other_lengths_are_refused() {
    let shelf = bytes(&on_shelf());
    for len in [1, 369, 371, 739, 741] {
        assert_eq!(Shelf::new(&shelf[..len]), Err(CdError::ShelfLength));
        assert_eq!(Shelf::new(vec![255; len]), Err(CdError::ShelfLength));
    }
    for len in [0, 370, 740, 1480] {
        let taken = Shelf::new(&shelf[..len]).unwrap();
        assert_eq!(taken.places(), len / Record::LEN);
    }
    // The record without nodes, twice.
    assert_eq!(Shelf::new([0; 370]).unwrap().places(), 1);
    let place = CdError::ShelfPlace { place: 1 };
    assert_eq!(Shelf::new([0; 740]), Err(place));
}

/// The shelf with other bytes at a place is refused there, whatever comes behind.
fn assert_wrong(place: usize, laid: &Record) {
    let wrong = Err(CdError::ShelfPlace { place });
    let mut records = on_shelf();
    records[place] = *laid;
    assert_eq!(Shelf::new(bytes(&records)), wrong);
    assert_eq!(Shelf::new(bytes(&records[..=place])), wrong);
    records[place + 1..].fill(damaged());
    assert_eq!(Shelf::new(bytes(&records)), wrong);
}

#[test]
fn a_damaged_place_is_refused() {
    for (place, record) in on_shelf().iter().enumerate() {
        for (at, value) in [(0, 0), (0, 10), (0, 255), (369, 1), (369, 255)] {
            let mut bytes = *record.as_bytes();
            bytes[at] = value;
            assert_wrong(place, &Record::from_trusted_bytes(&bytes));
        }
    }
    assert!(on_shelf()[1] < turned()); // refused though it rises
    assert_wrong(2, &turned());
}

#[test]
fn equal_and_descending_neighbours_are_refused() {
    for place in 1..4 {
        for less_or_equal in &records()[..2 * place] {
            assert_wrong(place, less_or_equal);
        }
        let mut records = on_shelf();
        records.swap(place - 1, place);
        let wrong = Err(CdError::ShelfPlace { place });
        assert_eq!(Shelf::new(bytes(&records)), wrong);
    }
}

#[test]
fn finds_what_is_there_and_where_the_rest_would_stand() {
    for (i, record) in records().iter().enumerate() {
        let found = if i % 2 == 1 { Ok(i / 2) } else { Err(i / 2) };
        assert_eq!(shelf().find(record), Ok(found), "{}", RISING[i]);
        assert_eq!(shelf().contains(record), Ok(found.is_ok()), "{}", RISING[i]);
    }
}

/// Every text of a figure finds its one record.
#[test]
fn headwords_that_are_taken() {
    let shelf = shelf();
    for text in ["x3o4o", "o4o3x", "o6/2x *a4o", "x3o4o *a5*a"] {
        assert_eq!(shelf.find(&record(text)), Ok(Ok(3)), "{text}");
    }
    assert_eq!(shelf.contains(&record("o3o4x")), Ok(false));
}

#[test]
fn a_record_that_is_there_is_not_added() {
    let mut shelf = shelf();
    let kept = shelf.clone();
    for (place, record) in on_shelf().iter().enumerate() {
        assert_eq!(shelf.add(record), Err(CdError::OnShelf { place }));
        assert_eq!(shelf, kept);
    }
}

/// Before all, between any two, and after all. The others stay in order, and are found as before or
/// one place further.
#[test]
fn a_record_is_added_in_its_only_place() {
    for new in records().iter().step_by(2) {
        let mut added = shelf();
        let place = added.add(new).unwrap();
        assert_eq!(shelf().find(new), Ok(Err(place)));
        assert_eq!(added.find(new), Ok(Ok(place)));

        let mut expected = on_shelf();
        expected.insert(place, *new);
        assert!(added.records().eq(expected));
        assert_eq!(Shelf::new(added.as_bytes()), Ok(added.clone()));
        for old in records().iter().filter(|&old| old != new) {
            let moved = |before| if before < place { before } else { before + 1 };
            let found = shelf().find(old).unwrap().map(moved);
            assert_eq!(added.find(old).unwrap().ok(), found.ok());
        }
        assert_eq!(added.add(new), Err(CdError::OnShelf { place }));
    }
}

#[test]
fn is_the_same_in_whichever_order_it_was_built() {
    let rising = records();
    let falling: Vec<Record> = records().into_iter().rev().collect();
    let mixed: Vec<Record> = (0..9).map(|i| rising[4 * i % 9]).collect();
    for order in [&rising, &falling, &mixed] {
        let mut shelf = Shelf::default();
        for (count, record) in order.iter().enumerate() {
            let place = shelf.find(record).unwrap().unwrap_err();
            assert_eq!(shelf.add(record), Ok(place));
            assert_eq!(shelf.find(record), Ok(Ok(place)));
            assert_eq!(shelf.places(), count + 1);
        }
        assert_eq!(shelf.as_bytes(), bytes(&rising));
    }
}

/// More places than a byte counts: `x3o`, `x4o` and so on. Of the figures between them, `x7/2o`
/// would stand behind `x7o`.
#[test]
fn many_places_are_searched_as_a_slice_is() {
    let mut records: Vec<Record> = (3..303).map(|num| record(&format!("x{num}o"))).collect();
    let between = (3..303).step_by(2).map(|num| record(&format!("x{num}/2o")));
    let mut shelf = Shelf::new(bytes(&records)).unwrap();
    for record in records.iter().copied().chain(between) {
        assert_eq!(shelf.find(&record), Ok(records.binary_search(&record)));
    }
    let new = record("x277/2o");
    assert_eq!(shelf.add(&new), Ok(275));
    records.insert(275, new);
    assert!(shelf.records().eq(records));

    let mut bytes = shelf.into_bytes();
    bytes[300 * Record::LEN] = 255;
    let place = CdError::ShelfPlace { place: 300 };
    assert_eq!(Shelf::new(bytes), Err(place));
}

#[test]
fn records_of_trusted_bytes_are_read_first() {
    for (record, refusal) in [
        (damaged(), CdError::NoDiagram),
        (turned(), CdError::NotSmallest),
    ] {
        let mut shelf = shelf();
        assert_eq!(shelf.find(&record), Err(refusal));
        assert_eq!(shelf.contains(&record), Err(refusal));
        assert_eq!(shelf.add(&record), Err(refusal));
        assert_eq!(shelf.as_bytes(), bytes(&on_shelf()));
        assert_eq!(Shelf::default().add(&record), Err(refusal));
    }
}

#[test]
fn threads_share_it() {
    let shelf = shelf();
    thread::scope(|scope| {
        for (place, record) in on_shelf().into_iter().enumerate() {
            let shelf = &shelf;
            scope.spawn(move || assert_eq!(shelf.find(&record), Ok(Ok(place))));
        }
    });
}

const REFUSED: PlaceMark = PlaceMark::Refused(CdError::NoDiagram);

/// What is to be kept of a file, place by place as the header says.
fn kept_of(file: &[u8]) -> Rescue {
    let (places, tail) = file.as_chunks::<{ Record::LEN }>();
    let mut kept: Vec<Record> = Vec::new();
    let marks = places.iter().map(|bytes| match Record::from_bytes(bytes) {
        Ok(record) if kept.last().is_none_or(|last| *last < record) => {
            kept.push(record);
            PlaceMark::Kept
        }
        Ok(_) => PlaceMark::OutOfOrder,
        Err(e) => PlaceMark::Refused(e),
    });
    Rescue {
        marks: marks.collect(),
        shelf: Shelf::new(bytes(&kept)).unwrap(),
        tail: tail.len(),
    }
}

#[test]
fn a_shelf_is_kept_whole() {
    for places in 0..=4 {
        let file = &bytes(&on_shelf())[..places * Record::LEN];
        let rescue = Shelf::rescue(file);
        assert_eq!(rescue.shelf.as_bytes(), file);
        assert_eq!(rescue.marks, vec![PlaceMark::Kept; places]);
        assert_eq!((rescue.tail, rescue.all_kept()), (0, true));
    }
}

#[test]
fn a_tail_is_told_and_not_kept() {
    let shelf = bytes(&on_shelf());
    for len in [1, 369, 371, 739, 741, 1479] {
        let rescue = Shelf::rescue(&shelf[..len]);
        let places = len / Record::LEN;
        assert_eq!(rescue.shelf.as_bytes(), &shelf[..places * Record::LEN]);
        assert_eq!(rescue.marks, vec![PlaceMark::Kept; places]);
        assert_eq!((rescue.tail, rescue.all_kept()), (len % 370, false));

        let rescue = Shelf::rescue(&vec![255; len]);
        assert!(rescue.shelf.is_empty());
        assert_eq!(rescue.marks, vec![REFUSED; places]);
        assert_eq!((rescue.tail, rescue.all_kept()), (len % 370, false));
    }
}

#[test]
fn a_damaged_place_is_left_out() {
    for laid in [damaged(), turned()] {
        for place in 0..4 {
            let mut records = on_shelf();
            records[place] = laid;
            let rescue = Shelf::rescue(&bytes(&records));
            let mut marks = [PlaceMark::Kept; 4];
            let refusal = Record::from_bytes(laid.as_bytes()).unwrap_err();
            marks[place] = PlaceMark::Refused(refusal);
            records.remove(place);
            assert!(rescue.shelf.records().eq(records));
            assert_eq!(rescue.marks, marks);
            assert_eq!((rescue.tail, rescue.all_kept()), (0, false));
        }
    }
}

#[test]
fn equal_and_descending_places_are_out_of_order() {
    use PlaceMark::{Kept, OutOfOrder};

    let [a, b, c, d] = on_shelf().try_into().unwrap();
    for (laid, kept, marks) in [
        ([a, a, b, d], vec![a, b, d], [Kept, OutOfOrder, Kept, Kept]),
        (
            [b, a, b, c],
            vec![b, c],
            [Kept, OutOfOrder, OutOfOrder, Kept],
        ),
        (
            [d, a, b, c],
            vec![d],
            [Kept, OutOfOrder, OutOfOrder, OutOfOrder],
        ),
        (
            [b, damaged(), a, c],
            vec![b, c],
            [Kept, REFUSED, OutOfOrder, Kept],
        ),
        (
            [damaged(), b, a, a],
            vec![b],
            [REFUSED, Kept, OutOfOrder, OutOfOrder],
        ),
    ] {
        let rescue = Shelf::rescue(&bytes(&laid));
        assert!(rescue.shelf.records().eq(kept));
        assert_eq!(rescue.marks, marks);
        assert_eq!((rescue.tail, rescue.all_kept()), (0, false));
    }
}

/// Each figure, a damaged record and one numbered badly, at each of three places, with a tail.
#[test]
fn every_file_of_three_places_is_rescued_as_the_header_says() {
    let mut laid = records();
    laid.extend([damaged(), turned()]);
    for i in 0..laid.len().pow(3) {
        let places = [i, i / laid.len(), i / laid.len().pow(2)].map(|i| laid[i % laid.len()]);
        let mut file = bytes(&places);
        file.resize(file.len() + i % Record::LEN, 0);
        let rescue = Shelf::rescue(&file);
        assert_eq!(rescue, kept_of(&file));
        assert_eq!(rescue.all_kept(), Shelf::new(file).is_ok());
    }
}

/// Whichever byte of a place is damaged, the other places are kept or out of order as before, and
/// those before it as they were.
#[test]
fn damage_inside_one_place_makes_no_other_unreadable() {
    let file = bytes(&on_shelf());
    for place in 0..4 {
        for at in 0..Record::LEN {
            for flipped in [1, 2, 128, 255] {
                let mut file = file.clone();
                file[place * Record::LEN + at] ^= flipped;
                let rescue = Shelf::rescue(&file);
                assert_eq!(rescue, kept_of(&file));
                let (before, behind) = rescue.marks.split_at(place);
                assert!(before.iter().all(|&mark| mark == PlaceMark::Kept));
                let readable = |mark: &PlaceMark| !matches!(mark, PlaceMark::Refused(_));
                assert!(behind[1..].iter().all(readable));
            }
        }
    }
}

#[test]
fn what_was_kept_is_a_shelf_like_others() {
    let mut file = bytes(&on_shelf());
    file[Record::LEN] = 255;
    file.push(0);
    let mut shelf = Shelf::rescue(&file).shelf;
    assert_eq!(Shelf::new(shelf.as_bytes()), Ok(shelf.clone()));
    assert_eq!(shelf.find(&on_shelf()[1]), Ok(Err(1)));
    assert_eq!(shelf.add(&on_shelf()[1]), Ok(1));
    assert_eq!(shelf.into_bytes(), bytes(&on_shelf()));
}
