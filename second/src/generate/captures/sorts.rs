//! The sorts of damage: every fault in every kind of record, every spare bit, every
//! cut and end.

use crate::capture::{Layout, KIND_CONFIG, KIND_END, LAYOUTS};
use crate::capture::{KIND_COMPLETION, KIND_LINK, KIND_WRITE};

/// One way to damage a capture. `kind` is the kind of the record that is damaged.
#[derive(Clone, Copy, Debug, PartialEq, Eq)]
pub enum Sort {
    /// A kind from 8 to 15.
    Kind(u8),
    /// A length beside what the kind takes.
    Length(u8, Wrong),
    /// One spare bit of the record's byte; `write` chooses among configurations.
    Padding {
        kind: u8,
        write: bool,
        byte: usize,
        bit: u32,
    },
    /// The file ends in such a record, after this.
    Cut(u8, Place),
    Count(Off),
    After(Behind),
    /// The file ends where the end record should begin.
    NoEnd,
    Empty,
    /// Two faults at once, of which the first in the order of judging counts.
    KindAndLength,
    KindAlone,
    LengthAndPadding(u8),
    LengthAlone(u8),
    PaddingAndCount,
    CutAndPadding(u8),
    /// A sound record with every spare bit of it set.
    AllPadding(u8),
}

#[derive(Clone, Copy, Debug, PartialEq, Eq)]
pub enum Wrong {
    OneShort,
    OneLong,
    Huge,
    Nothing,
}

#[derive(Clone, Copy, Debug, PartialEq, Eq)]
pub enum Place {
    /// After so many bytes of the first three.
    Front(usize),
    Body,
    OneShort,
}

#[derive(Clone, Copy, Debug, PartialEq, Eq)]
pub enum Off {
    OneMore,
    OneLess,
    Bit,
    Swapped,
}

#[derive(Clone, Copy, Debug, PartialEq, Eq)]
pub enum Behind {
    Bytes,
    Record,
    End,
    Bad,
}

impl Sort {
    /// All of them; no more than 200, so that 200 seeds have each.
    pub fn all() -> Vec<Sort> {
        let mut list: Vec<Sort> = (8..16).map(Sort::Kind).collect();
        for layout in &LAYOUTS {
            list.extend(lengths(layout));
            list.extend(spare_bits(layout));
            list.extend(cuts(layout));
            let kind = layout.kind;
            list.extend([Sort::LengthAndPadding(kind), Sort::AllPadding(kind)]);
        }
        for kind in [KIND_END, KIND_WRITE, KIND_COMPLETION, KIND_LINK] {
            list.extend([Sort::LengthAlone(kind), Sort::CutAndPadding(kind)]);
        }
        list.extend([Off::OneMore, Off::OneLess, Off::Bit, Off::Swapped].map(Sort::Count));
        let behind = [Behind::Bytes, Behind::Record, Behind::End, Behind::Bad];
        list.extend(behind.map(Sort::After));
        list.extend([Sort::NoEnd, Sort::Empty, Sort::KindAndLength]);
        list.extend([Sort::KindAlone, Sort::PaddingAndCount]);
        list
    }

    /// Which record it damages, and whether a configuration writes; nothing where
    /// any will do.
    pub(super) fn record(self) -> Option<(u8, bool)> {
        match self {
            Sort::Padding { kind, write, .. } => Some((kind, write)),
            Sort::Length(kind, _)
            | Sort::Cut(kind, _)
            | Sort::LengthAndPadding(kind)
            | Sort::LengthAlone(kind)
            | Sort::AllPadding(kind)
            | Sort::CutAndPadding(kind) => Some((kind, false)),
            Sort::Count(_) | Sort::PaddingAndCount | Sort::NoEnd | Sort::After(_) => {
                Some((KIND_END, false))
            }
            Sort::Kind(_) | Sort::Empty | Sort::KindAndLength | Sort::KindAlone => None,
        }
    }
}

fn lengths(layout: &Layout) -> Vec<Sort> {
    let mut list = vec![Wrong::OneLong, Wrong::Huge];
    if layout.shortest() > 0 {
        list.push(Wrong::OneShort);
    }
    if layout.shortest() > 1 {
        list.push(Wrong::Nothing);
    }
    let sort = |wrong| Sort::Length(layout.kind, wrong);
    list.into_iter().map(sort).collect()
}

/// The low half of the first byte, then the bits behind the fields.
fn spare_bits(layout: &Layout) -> Vec<Sort> {
    let last = 3 + layout.field_bytes() - 1;
    let front = (0..4).map(|bit| (0, bit));
    let behind = (0..layout.padding()).map(|bit| (last, bit));
    let mut list = Vec::new();
    for (byte, bit) in front.chain(behind) {
        // The bits behind a configuration's fields count in both of its forms.
        let forms = match layout.kind == KIND_CONFIG && byte > 0 {
            true => &[false, true][..],
            false => &[false],
        };
        for write in forms {
            list.push(Sort::Padding {
                kind: layout.kind,
                write: *write,
                byte,
                bit,
            });
        }
    }
    list
}

fn cuts(layout: &Layout) -> Vec<Sort> {
    let mut list = vec![Place::Front(1), Place::Front(2)];
    if layout.shortest() > 0 {
        list.push(Place::Front(3));
    }
    if layout.shortest() > 1 {
        list.extend([Place::Body, Place::OneShort]);
    }
    let sort = |place| Sort::Cut(layout.kind, place);
    list.into_iter().map(sort).collect()
}
