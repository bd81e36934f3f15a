//! The calls about records, compared with figures.rs.

use crate::{
    figures::{Figure, Numbering, ReadBack, RECORD},
    port::{Asked, Asking, Call, Port, Want, SPARE},
};

/// A record, and the numbering that was handed out with it.
pub type Written = ([u8; RECORD], Numbering);

/// The record of an accepted text, whose figure is given in the order of the text's nodes: it must be the smallest layout,
/// and its numbering the first that gives it, with each of the wishes.
pub fn written(port: &mut Port, asking: Asking, figure: &Figure, window: usize) -> Result<Written, String> {
    let first = figure.first_smallest();
    let smallest = figure.renumbered(&first).layout();
    for asked in asking.each() {
        port.call(Call::Record(asked), RECORD + window % SPARE, window);
        let fault = port.record_departs([0, figure.count, 0, 0]).or_else(|| departs(port.record(), (smallest, first)));
        if let Some(what) = fault {
            return Err(format!("lexicon_write_record, wish {}: {what}", asked.wish));
        }
    }
    Ok((smallest, first))
}

/// How a record and its numbering depart from those that are due; `None` if they don't.
fn departs((bytes, numbering): Written, (smallest, first): Written) -> Option<String> {
    if bytes != smallest {
        return Some(format!("{}, {} is due", shown(&bytes), shown(&smallest)));
    }
    (numbering != first).then(|| format!("the numbering {numbering:?}, {first:?} is due"))
}

/// A text whose record is refused, or is to be written into too short a buffer: both buffers must be kept.
pub fn refused(port: &mut Port, asked: Asked, len: usize, answer: [usize; 4], window: usize) -> Result<(), String> {
    port.call(Call::Record(asked), len, window);
    let fault = port.record_departs(answer);
    fault.map_or(Ok(()), |what| Err(format!("lexicon_write_record, wish {}, {len} bytes lent: {what}", asked.wish)))
}

/// Bytes read back: they must come to this, the record of a figure to the figure's diagram.
pub fn read_as(port: &mut Port, bytes: &[u8; RECORD], back: &ReadBack, window: usize) -> Result<(), String> {
    let refusal = |number| Want { answer: [number, 0, 0, 0], out: &[] };
    let call = Call::ReadRecord(bytes);
    match back {
        ReadBack::Record(figure) => {
            let (diagram, edges) = figure.diagram();
            port.check(call, Want { answer: [0, figure.count, edges, 0], out: &diagram.0 }, window)
        }
        ReadBack::NoLayout => port.check(call, refusal(14), window),
        ReadBack::NotSmallest => port.check(call, refusal(22), window),
    }
    .map_err(|what| format!("{what}; of {}", shown(bytes)))
}

/// In hexadecimal, without the zeros at the end.
pub fn shown(bytes: &[u8]) -> String {
    let end = bytes.iter().rposition(|&byte| byte != 0).map_or(0, |last| last + 1);
    bytes[..end].iter().map(|byte| format!("{byte:02x}")).collect::<String>() + "…"
}
