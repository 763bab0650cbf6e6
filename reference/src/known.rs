//! The paper's own cases: "Tables and listings to try", the sheet, and the borders that the rules name.
//!
//! Each case states what the paper says of it; the part and the reference both have to give it.

use crate::cases::{Case, Outcome};
use crate::draw::{NO_ORIGINS, SET_LENGTHS};
use crate::graft::Kept;
use crate::look::LookedAt;
use crate::poll::Record;
use crate::sets::SET_BYTES;
use crate::sheet;
use crate::table::{of_tree, put, quartets, scaled, times, COUNTS, POLL};
use crate::tree::Tree;

/// What the paper says of a case.
pub enum Due {
    /// Accepted with this number (0 where there is none); these cells are written and no others.
    Written(u64, Vec<i64>),
    /// Accepted with this number; these are some of the cells written.
    Cells(u64, Vec<(usize, i64)>),
    /// Refused: number and figure.
    Refused(u64, u64),
}

/// The numbers of origins, which are figures of accepted calls.
pub const REBUILT: u64 = 0;
const LISTED: u64 = 1;
const IMPORTED: u64 = 2;
pub const GUESSED: u64 = 3;
pub const GRAFTED: u64 = 4;

pub struct Known {
    pub name: &'static str,
    pub case: Case,
    pub due: Due,
}

impl Due {
    /// Does an outcome say what the paper says?
    pub fn agrees(&self, outcome: &Outcome) -> bool {
        let Outcome { reply, written } = outcome;
        match self {
            Due::Written(figure, cells) => *reply == figure << 8 && written == cells,
            Due::Cells(figure, cells) => {
                *reply == figure << 8 && cells.iter().all(|&(place, value)| written.get(place) == Some(&value))
            }
            Due::Refused(number, figure) => *reply == number | figure << 8 && written.is_empty(),
        }
    }
}

/// A table: the cells named stand for their mirrors too, the rest have one value, the diagonal is 0.
fn table(n: usize, named: &[(usize, usize, u32)], rest: u32) -> Vec<u32> {
    let mut cells = vec![0; n * n];
    for i in 0..n {
        for j in i + 1..n {
            put(&mut cells, n, (i, j), rest);
        }
    }
    for &(i, j, value) in named {
        put(&mut cells, n, (i, j), value);
    }
    cells
}

const P3_LISTING: [u16; 4] = [2, 3, 1, 4];

/// The table of P3.
fn p3() -> Vec<u32> {
    table(4, &[(0, 1, 1), (2, 3, 1)], 0)
}

const P8_LISTING: [u16; 8] = [2, 3, 4, 5, 6, 7, 1, 8];

/// The table of P8, whose tree has three pairs.
fn p8() -> Vec<u32> {
    table(6, &[(0, 1, 6), (2, 3, 6), (4, 5, 6)], 1)
}

/// The table of the paper's sheet.
fn p7() -> Vec<u32> {
    table(5, &[(0, 1, 3), (0, 2, 1), (1, 2, 1), (2, 3, 1), (2, 4, 1), (3, 4, 3)], 0)
}

const P7_LISTING: [u16; 6] = [3, 4, 2, 5, 1, 6];

/// The bytes of the splits of the tree with that listing: leaves 3 and 4, then 2, 3 and 4.
fn p7_splits() -> Vec<i64> {
    let mut bytes = vec![0; 32];
    (bytes[0], bytes[16]) = (0b11000, 0b11100);
    bytes
}

const PAPER_SHEET: [u8; 38] = [
    0x01, 0x61, 0x01, 0x62, 0x01, 0x63, 0x01, 0x64, 0x01, 0x65, //
    0x03, 0x00, 0x01, 0x00, 0x00, 0x00, 0x00, 0x00, 0x01, 0x00, //
    0x00, 0x00, 0x00, 0x00, 0x01, 0x00, 0x01, 0x00, 0x03, 0x00, //
    0x05, 0x00, 0x0A, 0x00, 0x00, 0x00, 0x51, 0x54,
];

/// The export of its tree.
const P7_TEXT: &[u8] = b"(a,b,(c,(d,e)));";

pub fn wide<T: Copy + Into<i64>>(cells: &[T]) -> Vec<i64> {
    cells.iter().map(|&cell| cell.into()).collect()
}

/// The comb with the leaves in order: rows n−2 n−1, then each leaf downwards with the node before.
fn comb(n: usize) -> Vec<u16> {
    let mut listing = vec![n as u16 - 2, n as u16 - 1];
    listing.extend((1..n - 2).rev().zip(n..).flat_map(|(leaf, node)| [leaf as u16, node as u16]));
    listing
}

/// A sheet of these names and cells, with the offset where the cells begin.
fn sheet(names: &[Vec<u8>], cells: &[u16]) -> Vec<u8> {
    let mut bytes = Vec::new();
    for name in names {
        bytes.push(name.len() as u8);
        bytes.extend(name);
    }
    let offset = bytes.len() as u32;
    bytes.extend(cells.iter().flat_map(|cell| cell.to_le_bytes()));
    bytes.extend((names.len() as u16).to_le_bytes());
    bytes.extend(offset.to_le_bytes());
    bytes.extend([0x51, 0x54]);
    bytes
}

/// A sheet of three leaves with these names, all cells 0.
fn three(names: [&[u8]; 3]) -> Vec<u8> {
    sheet(&names.map(|name| name.to_vec()), &[0; 3])
}

/// A sheet that is its trailer alone.
fn trailer(count: u16, offset: u32) -> Vec<u8> {
    [&count.to_le_bytes()[..], &offset.to_le_bytes()[..], &[0x51, 0x54]].concat()
}

/// The longest sheet: 128 names of 40 bytes.
fn longest_sheet() -> Vec<u8> {
    let names: Vec<Vec<u8>> = (0..128).map(|leaf| format!("strain-{leaf:033}").into_bytes()).collect();
    let longest = sheet(&names, &[0; 8_128]);
    assert_eq!(longest.len(), sheet::LONGEST);
    longest
}

/// The poll of the comb of five leaves in order, whose table is P7's: every quartet is paired first with second.
fn p7_poll() -> Vec<Record> {
    [[0, 1, 2, 3], [0, 1, 2, 4], [0, 1, 3, 4], [0, 2, 3, 4], [1, 2, 3, 4]]
        .map(|leaves| Record { leaves, code: 0 })
        .to_vec()
}

/// Every known case.
pub fn known_cases() -> Vec<Known> {
    let mut cases = rebuilds();
    cases.extend(guesses());
    cases.extend(listings());
    cases.extend(records());
    cases.extend(tables());
    cases.extend(counts());
    cases.extend(lengths());
    cases.extend(polls());
    cases.extend(polled_tables());
    cases.extend(polled_counts());
    cases.extend(sheets());
    cases.extend(exports());
    cases.extend(imports());
    cases.extend(long_texts());
    cases.extend(grafts());
    cases.extend(prunes());
    cases.extend(refused_changes());
    cases.extend(sets());
    cases.extend(set_sizes());
    cases.extend(looks());
    cases.extend(totals_of_all());
    cases.extend(look_counts());
    cases.extend(refused_looks());
    cases
}

fn rebuilds() -> Vec<Known> {
    let rebuilt = |name, n, table, listing: &[u16]| Known {
        name,
        case: Case::Rebuild { n, poll: COUNTS, table, room: 2 * (n - 2) },
        due: Due::Written(REBUILT, wide(listing)),
    };
    let refused = |name, n, table, number, figure| Known {
        name,
        case: Case::Rebuild { n, poll: COUNTS, table, room: 2 * (n - 2) },
        due: Due::Refused(number, figure),
    };
    let guided = |name, merges: [u16; 8], due| Known {
        name,
        case: Case::Guided { n: 5, poll: COUNTS, table: p7(), merges: merges.to_vec(), room: 6 },
        due,
    };
    let mut filled = table(6, &[], 0);
    filled[1] = 1;
    filled[5 * 6 + 5] = 1;
    let mut unequal = table(6, &[], 0);
    unequal[2 * 6 + 1] = 1;
    unequal[5 * 6 + 1] = 1;
    vec![
        rebuilt("P1", 3, table(3, &[], 0), &[1, 2]),
        refused("P2", 3, table(3, &[(0, 1, 1)], 0), 6, 0),
        rebuilt("P3", 4, p3(), &P3_LISTING),
        rebuilt("P4", 4, table(4, &[(0, 2, 1), (1, 3, 1)], 0), &[1, 3, 4, 2]),
        refused("P5", 4, table(4, &[], 0), 6, 0),
        refused("P6", 4, table(4, &[(0, 1, 1)], 0), 6, 0),
        rebuilt("P7", 5, p7(), &P7_LISTING),
        rebuilt("P8", 6, p8(), &P8_LISTING),
        guided("P12", [3, 4, 0, 1, 2, 3, 0, 2], Due::Written(REBUILT, wide(&P7_LISTING))),
        guided("P12 guided from 0 2", [0, 2, 3, 4, 0, 1, 2, 3], Due::Refused(12, 0)),
        guided("P12 with one subtree twice at step 2", [3, 4, 0, 1, 4, 3, 0, 2], Due::Refused(12, 2)),
        guided("P12 with leaf 5 at step 3", [3, 4, 0, 1, 2, 3, 0, 5], Due::Refused(12, 3)),
        refused("orders that leave 2 subtrees or 3", 4, table(4, &[(0, 3, 1), (1, 2, 1), (2, 3, 1)], 0), 6, 0),
        refused("the diagonal before the halves", 6, filled, 4, 5),
        refused("the first unequal halves", 6, unequal, 5, 256 + 2),
        Known {
            name: "a short output before a table that no tree has",
            case: Case::Rebuild { n: 4, poll: COUNTS, table: table(4, &[], 0), room: 3 },
            due: Due::Refused(3, 0),
        },
    ]
}

/// Worked guesses. P2, P5 and P6, which no tree has, are guessed; a table that has a tree gets it, marked rebuilt.
fn guesses() -> Vec<Known> {
    let (n, top) = (128, u32::MAX);
    let case = |poll, n: usize, table, room| Case::Guess { n, poll, table, room };
    let exact = |name, n, table, listing: &[u16]| Known {
        name,
        case: case(COUNTS, n, table, 2 * (n - 2)),
        due: Due::Written(REBUILT, wide(listing)),
    };
    let guessed = |name, poll, n, table, listing: &[u16], total: u64| Known {
        name,
        case: case(poll, n, table, 2 * n),
        due: Due::Written(GUESSED + 256 * total, wide(listing)),
    };
    let refused = |name, n, table, room, number, figure| Known {
        name,
        case: case(COUNTS, n, table, room),
        due: Due::Refused(number, figure),
    };
    let mut filled = table(6, &[], 0);
    filled[1] = 1;
    filled[5 * 6 + 5] = top;
    let mut unequal = table(6, &[], 7);
    unequal[5 * 6 + 1] = 1;
    vec![
        exact("P1 guessed", 3, table(3, &[], 0), &[1, 2]),
        exact("P3 guessed", 4, p3(), &P3_LISTING),
        exact("P4 guessed", 4, table(4, &[(0, 2, 1), (1, 3, 1)], 0), &[1, 3, 4, 2]),
        exact("P7 guessed", 5, p7(), &P7_LISTING),
        exact("P8 guessed", 6, p8(), &P8_LISTING),
        guessed("P2 guessed", COUNTS, 3, table(3, &[(0, 1, 1)], 0), &[1, 2], 1),
        guessed("P5 guessed", COUNTS, 4, table(4, &[], 0), &[2, 3, 1, 4], 2),
        guessed("P6 guessed", COUNTS, 4, table(4, &[(0, 1, 1)], 0), &[2, 3, 1, 4], 1),
        guessed("two cells of leaf 2", COUNTS, 4, table(4, &[(0, 2, 1), (1, 2, 1)], 0), &[1, 3, 4, 2], 2),
        guessed("five leaves and zeros", COUNTS, 5, table(5, &[], 0), &P7_LISTING, 10),
        guessed("five leaves and zeros, a poll's", POLL, 5, table(5, &[], 0), &P7_LISTING, 60),
        guessed("P7's table taken for a poll's", POLL, 5, p7(), &P7_LISTING, 50),
        guessed(
            "three cells",
            COUNTS,
            3,
            table(3, &[(0, 1, 5), (0, 2, 7), (1, 2, top)], 0),
            &[1, 2],
            12 + u64::from(top),
        ),
        Known {
            name: "the greatest total",
            case: case(COUNTS, n, table(n, &[], top), 2 * n),
            due: Due::Cells(GUESSED + 256 * (8_128 * u64::from(top) - 2 * 10_668_000), vec![]),
        },
        refused("the diagonal before the halves of a guess", 6, filled, 8, 4, 5),
        refused("the first unequal halves of a guess", 6, unequal, 8, 5, 256 + 5),
        refused("a short output for a guess", 4, table(4, &[], 0), 3, 3, 0),
    ]
}

fn listings() -> Vec<Known> {
    let check = |name, listing: [u16; 4], due| Known { name, case: Case::Check { n: 4, listing: listing.into() }, due };
    let standardise = |name, listing: [u16; 4], due| Known {
        name,
        case: Case::Standardise { n: 4, listing: listing.into(), room: 4 },
        due,
    };
    let pairing = |name, question: [u16; 4], due| Known {
        name,
        case: Case::Pairing { n: 5, listing: P7_LISTING.into(), question: question.into() },
        due,
    };
    vec![
        check("P9 checked", [2, 3, 4, 1], Due::Written(0, Vec::new())),
        standardise("P9", [2, 3, 4, 1], Due::Written(0, vec![2, 3, 1, 4])),
        check("P10", [2, 2, 1, 4], Due::Refused(8, 1)),
        standardise("P10 to be standardised", [2, 2, 1, 4], Due::Refused(8, 1)),
        check("P11", [2, 4, 1, 3], Due::Refused(7, 1)),
        standardise("P11 to be standardised", [2, 4, 1, 3], Due::Refused(7, 1)),
        check("the last node as a child", [2, 3, 5, 1], Due::Refused(7, 2)),
        check("leaf 0 as a child", [2, 3, 4, 0], Due::Refused(7, 3)),
        pairing("first with second", [0, 1, 3, 4], Due::Written(0, Vec::new())),
        pairing("first with third", [3, 0, 4, 2], Due::Written(1, Vec::new())),
        pairing("first with fourth", [1, 3, 4, 0], Due::Written(2, Vec::new())),
        pairing("a leaf twice", [0, 1, 3, 1], Due::Refused(9, 3)),
        pairing("a leaf too high before a leaf twice", [0, 5, 0, 1], Due::Refused(9, 1)),
        Known {
            name: "splits of P7's tree",
            case: Case::Splits { n: 5, listing: P7_LISTING.into(), room: 32 },
            due: Due::Written(0, p7_splits()),
        },
        Known {
            name: "three leaves have no splits",
            case: Case::Splits { n: 3, listing: vec![2, 1], room: 0 },
            due: Due::Written(0, Vec::new()),
        },
        Known {
            name: "three leaves have no quartet",
            case: Case::Pairing { n: 3, listing: vec![2, 1], question: vec![0, 1, 2, 3] },
            due: Due::Refused(9, 3),
        },
    ]
}

/// P7's tree and P9's to P11's listings as records of every origin, and of numbers that name none and are taken as
/// listed. A refusal has its own figure, whatever the origin is.
fn records() -> Vec<Known> {
    let mut known = Vec::new();
    for (origin, figure) in (0..5).map(|origin| (origin, origin.into())).chain(NO_ORIGINS.map(|none| (none, LISTED))) {
        let mut put = |n, listing: &[u16], room, due| {
            let case = Case::Restandardise { n, origin, listing: listing.into(), room };
            known.push(Known { name: "a record of any origin", case, due });
        };
        put(5, &P7_LISTING, 6, Due::Written(figure, wide(&P7_LISTING)));
        put(5, &[4, 3, 5, 2, 6, 1], 7, Due::Written(figure, wide(&P7_LISTING)));
        put(4, &[2, 3, 4, 1], 4, Due::Written(figure, vec![2, 3, 1, 4]));
        put(4, &[2, 2, 1, 4], 4, Due::Refused(8, 1));
        put(4, &[2, 4, 1, 3], 4, Due::Refused(7, 1));
        put(4, &[2, 2, 1, 4], 3, Due::Refused(3, 0));
        put(4, &[2, 2, 1], 3, Due::Refused(2, 0));
        put(2, &[], 0, Due::Refused(1, 0));
    }
    known
}

fn tables() -> Vec<Known> {
    let (n, top) = (128, u32::MAX);
    let gap = |name, n: usize, table, listing: &[u16], cells| Known {
        name,
        case: Case::Gap { n, poll: COUNTS, table, listing: listing.into(), room: n * n },
        due: Due::Cells(0, cells),
    };
    vec![
        Known {
            name: "P7's table",
            case: Case::Table { n: 5, listing: P7_LISTING.into(), room: 25 },
            due: Due::Written(0, wide(&p7())),
        },
        Known {
            name: "the largest cell",
            case: Case::Table { n, listing: comb(n), room: n * n },
            due: Due::Cells(0, vec![(0, 0), (1, 7_875), (n * n - 2, 7_875), (127, 0)]),
        },
        gap("the zero table against P7's tree", 5, table(5, &[], 0), &P7_LISTING, vec![(1, -3), (3, 0)]),
        gap("the lower end", n, table(n, &[], 0), &comb(n), vec![(1, -7_875), (n * n - 2, -7_875), (127, 0)]),
        gap("the upper end", 3, table(3, &[(0, 1, top)], 0), &[1, 2], vec![(1, i64::from(top)), (2, 0)]),
        gap("P7's table against its tree", 5, p7(), &P7_LISTING, (0..25).map(|place| (place, 0)).collect()),
        Known {
            name: "a broken listing before a filled diagonal",
            case: Case::Gap { n: 3, poll: COUNTS, table: vec![1; 9], listing: vec![1, 1], room: 9 },
            due: Due::Refused(8, 1),
        },
    ]
}

/// Leaf counts 2 and 129 are refused by every operation that has one, 128 is accepted.
fn counts() -> Vec<Known> {
    let mut known = Vec::new();
    for n in [2, 129] {
        let (listing, table, room) = (vec![1; 2 * (n - 2)], vec![0; n * n], 20_000);
        let merges = vec![0; 2 * (n - 1)];
        let cases = [
            Case::Check { n, listing: listing.clone() },
            Case::Standardise { n, listing: listing.clone(), room },
            Case::Restandardise { n, origin: 0, listing: listing.clone(), room },
            Case::Splits { n, listing: listing.clone(), room },
            Case::Pairing { n, listing: listing.clone(), question: vec![0, 1, 2, 3] },
            Case::Table { n, listing: listing.clone(), room },
            Case::Gap { n, poll: COUNTS, table: table.clone(), listing, room },
            Case::Rebuild { n, poll: COUNTS, table: table.clone(), room },
            Case::Guided { n, poll: COUNTS, table: table.clone(), merges, room },
            Case::Guess { n, poll: COUNTS, table, room },
            Case::CheckSheet { sheet: trailer(n as u16, 0) },
            Case::SheetTable { sheet: trailer(n as u16, 0), room },
            Case::SheetName { sheet: trailer(n as u16, 0), leaf: 0 },
            Case::RebuildSheet { sheet: trailer(n as u16, 0), room },
            Case::Export { sheet: trailer(n as u16, 0), listing: vec![1; 2 * (n - 2)], room },
            Case::Import { sheet: trailer(n as u16, 0), text: P7_TEXT.into(), room },
            Case::Graft(kept(n, &vec![1; 2 * (n - 2)], vec![0; n * n], 1)),
            Case::Prune(kept(n, &vec![1; 2 * (n - 2)], vec![0; n * n], 1)),
            Case::Look(looked_at(kept(n, &vec![1; 2 * (n - 2)], vec![0; n * n], 1), vec![0; (n + 1) * (n + 1)])),
            Case::LookAll(looked_at(kept(n, &vec![1; 2 * (n - 2)], vec![0; n * n], 1), vec![0; (n + 1) * (n + 1)])),
        ];
        known.extend(cases.map(|case| Known { name: "leaf counts 2 and 129", case, due: Due::Refused(1, 0) }));
    }
    for n in [3, 33] {
        let case = Case::Poll { n, records: Vec::new(), room: 2_000 };
        known.push(Known { name: "polls of 3 and 33", case, due: Due::Refused(1, 0) });
    }
    let case = Case::Check { n: 128, listing: comb(128) };
    known.push(Known { name: "128 leaves", case, due: Due::Written(0, Vec::new()) });
    known
}

/// One more than the greatest number of 16 bits.
const FAR: usize = 1 << 16;

/// An input that is too long by FAR.
fn longer<T: Copy>(lent: &[T]) -> Vec<T> {
    [lent, &vec![lent[0]; FAR]].concat()
}

/// Lengths whose lower 16 bits look otherwise than they are: an input too long by FAR is refused, room for FAR is enough.
fn lengths() -> Vec<Known> {
    let (n, origin) = (5, IMPORTED as u32);
    let (listing, table, question) = (P7_LISTING.to_vec(), p7(), vec![0, 1, 3, 4]);
    let merges: Vec<u16> = vec![3, 4, 0, 1, 2, 3, 0, 2];
    let set = set(&[(0, 0b11100)]);
    let inputs = [
        Case::Check { n, listing: longer(&listing) },
        Case::Standardise { n, listing: longer(&listing), room: 6 },
        Case::Restandardise { n, origin, listing: longer(&listing), room: 6 },
        Case::Splits { n, listing: longer(&listing), room: 32 },
        Case::Pairing { n, listing: longer(&listing), question: question.clone() },
        Case::Pairing { n, listing: listing.clone(), question: longer(&question) },
        Case::Table { n, listing: longer(&listing), room: 25 },
        Case::Gap { n, poll: COUNTS, table: longer(&table), listing: listing.clone(), room: 25 },
        Case::Gap { n, poll: COUNTS, table: table.clone(), listing: longer(&listing), room: 25 },
        Case::Rebuild { n, poll: COUNTS, table: longer(&table), room: 6 },
        Case::Guided { n, poll: COUNTS, table: longer(&table), merges: merges.clone(), room: 6 },
        Case::Guided { n, poll: COUNTS, table: table.clone(), merges: longer(&merges), room: 6 },
        Case::Guess { n, poll: COUNTS, table: longer(&table), room: 6 },
        Case::Poll { n, records: longer(&p7_poll()), room: 25 },
        Case::Export { sheet: PAPER_SHEET.into(), listing: longer(&listing), room: P7_TEXT.len() },
        Case::Graft(kept(n, &longer(&listing), table.clone(), 1)),
        Case::Graft(kept(n, &listing, longer(&table), 1)),
        Case::Prune(kept(n, &longer(&listing), table.clone(), 1)),
        Case::Prune(kept(n, &listing, longer(&table), 1)),
        Case::SetJoin { a: longer(&set), b: set.clone(), room: SET_BYTES },
        Case::SetJoin { a: set.clone(), b: longer(&set), room: SET_BYTES },
        Case::SetIntersect { a: longer(&set), b: set.clone(), room: SET_BYTES },
        Case::SetIntersect { a: set.clone(), b: longer(&set), room: SET_BYTES },
        Case::SetEqual { a: longer(&set), b: set.clone() },
        Case::SetEqual { a: set.clone(), b: longer(&set) },
        Case::SetEqual { a: longer(&set), b: longer(&set) },
        Case::Look(looked_at(kept(n, &longer(&listing), table.clone(), 1), p8())),
        Case::Look(looked_at(kept(n, &listing, longer(&table), 1), p8())),
        Case::Look(looked_at(kept(n, &listing, table.clone(), 1), longer(&p8()))),
        Case::LookAll(looked_at(kept(n, &longer(&listing), table.clone(), 1), p8())),
        Case::LookAll(looked_at(kept(n, &listing, longer(&table), 1), p8())),
        Case::LookAll(looked_at(kept(n, &listing, table.clone(), 1), longer(&p8()))),
    ];
    let sheets = [
        Case::CheckSheet { sheet: longer(&PAPER_SHEET) },
        Case::SheetTable { sheet: longer(&PAPER_SHEET), room: 25 },
        Case::SheetName { sheet: longer(&PAPER_SHEET), leaf: 4 },
        Case::RebuildSheet { sheet: longer(&PAPER_SHEET), room: 12 },
        Case::Export { sheet: longer(&PAPER_SHEET), listing: listing.clone(), room: P7_TEXT.len() },
        Case::Import { sheet: longer(&PAPER_SHEET), text: P7_TEXT.into(), room: 6 },
    ];
    let (rows, cells, sixths) = (wide(&listing), wide(&table), wide(&scaled(&table, 6)));
    let bytes: Vec<i64> = rows.iter().flat_map(|&child| [child, 0]).collect();
    let (export, text) = (Due::Written(P7_TEXT.len() as u64, wide(P7_TEXT)), P7_TEXT.to_vec());
    let roomy =
        |n, listing: &[u16], table, named| Kept { room: FAR, table_room: FAR, ..kept(n, listing, table, named) };
    let rooms = [
        (Case::Graft(roomy(4, &P3_LISTING, p3(), 3)), changed(&P7_LISTING, &table)),
        (Case::LookAll(looked_at(roomy(4, &P3_LISTING, p3(), 0), p7())), Due::Written(0, P7_TOTALS.to_vec())),
        (Case::Prune(roomy(n, &listing, table.clone(), 0)), changed(&P3_LISTING, &p3())),
        (Case::Export { sheet: PAPER_SHEET.into(), listing: listing.clone(), room: FAR }, export),
        (Case::Import { sheet: PAPER_SHEET.into(), text, room: FAR }, Due::Written(IMPORTED, rows.clone())),
        (Case::Standardise { n, listing: listing.clone(), room: FAR }, Due::Written(0, rows.clone())),
        (Case::Restandardise { n, origin, listing: listing.clone(), room: FAR }, Due::Written(IMPORTED, rows.clone())),
        (Case::Splits { n, listing: listing.clone(), room: FAR }, Due::Written(0, p7_splits())),
        (Case::Table { n, listing: listing.clone(), room: FAR }, Due::Written(0, cells.clone())),
        (Case::Gap { n, poll: COUNTS, table: table.clone(), listing, room: FAR }, Due::Written(0, vec![0; 25])),
        (Case::Rebuild { n, poll: COUNTS, table: table.clone(), room: FAR }, Due::Written(REBUILT, rows.clone())),
        (Case::Guided { n, poll: COUNTS, table, merges, room: FAR }, Due::Written(REBUILT, rows.clone())),
        (Case::Guess { n, poll: COUNTS, table: vec![0; 25], room: FAR }, Due::Written(GUESSED + 256 * 10, rows)),
        (Case::Poll { n, records: p7_poll(), room: FAR }, Due::Written(0, sixths)),
        (Case::SheetTable { sheet: PAPER_SHEET.into(), room: FAR }, Due::Written(5, cells)),
        (Case::RebuildSheet { sheet: PAPER_SHEET.into(), room: FAR }, Due::Written(0, bytes)),
        (Case::SetJoin { a: set.clone(), b: set.clone(), room: FAR }, Due::Written(0, wide(&set))),
        (Case::SetIntersect { a: set.clone(), b: set.clone(), room: FAR }, Due::Written(0, wide(&set))),
    ];
    let mut known = Vec::new();
    known.extend(inputs.map(|case| Known { name: "an input too long by 65,536", case, due: Due::Refused(2, 0) }));
    known.extend(sheets.map(|case| Known { name: "a sheet too long by 65,536", case, due: Due::Refused(13, 0) }));
    known.extend(rooms.map(|(case, due)| Known { name: "room for 65,536", case, due }));
    known
}

/// A tree and its table with more room than a change of it needs.
fn kept(n: usize, listing: &[u16], table: Vec<u32>, named: usize) -> Kept {
    Kept { n, listing: listing.into(), table, named, room: 2 * n, table_room: (n + 2) * (n + 2) }
}

/// What a graft or a prune writes.
fn changed(listing: &[u16], table: &[u32]) -> Due {
    Due::Written(GRAFTED, [wide(listing), wide(table)].concat())
}

/// The beginning of what it writes: the listing.
fn changed_listing(listing: &[u16]) -> Due {
    Due::Cells(GRAFTED, wide(listing).into_iter().enumerate().collect())
}

/// Grafts on every edge of three leaves, and on leaves' and nodes' edges of P3's, P7's and P8's trees.
fn grafts() -> Vec<Known> {
    let graft = |name, n, listing: &[u16], table, edge, due| Known {
        name,
        case: Case::Graft(kept(n, listing, table, edge)),
        due,
    };
    let three = |name, edge, due| graft(name, 3, &[1, 2], vec![0; 9], edge, due);
    let p7_edge = |name, edge, due| graft(name, 5, &P7_LISTING, p7(), edge, due);
    let largest = of_tree(&Tree::from_listing(127, &comb(127)));
    vec![
        three("edge 1 of three leaves", 1, changed(&[1, 3, 4, 2], &table(4, &[(0, 2, 1), (1, 3, 1)], 0))),
        three("edge 2 of three leaves", 2, changed(&P3_LISTING, &p3())),
        three("leaf 0's edge of three leaves", 3, changed(&[1, 2, 4, 3], &table(4, &[(0, 3, 1), (1, 2, 1)], 0))),
        three("no edge 0", 0, Due::Refused(20, 0)),
        three("no edge 4 of three leaves", 4, Due::Refused(20, 0)),
        graft("P7's tree from P3's", 4, &P3_LISTING, p3(), 3, changed(&P7_LISTING, &p7())),
        p7_edge("a node's edge", 5, changed_listing(&[3, 4, 6, 5, 2, 7, 1, 8])),
        p7_edge("leaf 0's edge", 7, changed_listing(&[3, 4, 2, 6, 1, 7, 8, 5])),
        p7_edge("no edge 8 of five leaves", 8, Due::Refused(20, 0)),
        p7_edge("no edge in 16 bits", FAR + 1, Due::Refused(20, 0)),
        p7_edge("no edge in 32 bits", (1 << 32) + 1, Due::Refused(20, 0)),
        p7_edge("no edge at all", usize::MAX, Due::Refused(20, 0)),
        graft("an edge of P8's tree", 6, &P8_LISTING, p8(), 6, changed_listing(&[2, 3, 7, 6, 4, 5, 8, 9, 1, 10])),
        graft(
            "the same edge, where the listing lent has another node of that number",
            6,
            &[4, 5, 2, 3, 6, 7, 1, 8],
            p8(),
            6,
            changed_listing(&[2, 3, 7, 6, 4, 5, 8, 9, 1, 10]),
        ),
        graft("the last leaf", 127, &comb(127), largest, 126, changed_listing(&comb(128))),
    ]
}

/// Prunes of P7's and P8's trees, and of the largest comb.
fn prunes() -> Vec<Known> {
    let prune = |name, n, listing: &[u16], table, leaf, due| Known {
        name,
        case: Case::Prune(kept(n, listing, table, leaf)),
        due,
    };
    let p7_leaf = |leaf| prune("a leaf of P7's tree", 5, &P7_LISTING, p7(), leaf, changed(&P3_LISTING, &p3()));
    let p8_leaf = |name, leaf, due| prune(name, 6, &P8_LISTING, p8(), leaf, due);
    let pairs_and_leaf_0 = table(5, &[(1, 2, 3), (3, 4, 3), (0, 1, 1), (0, 2, 1), (0, 3, 1), (0, 4, 1)], 0);
    let absent = |leaf| p8_leaf("no such leaf", leaf, Due::Refused(20, 0));
    let largest = of_tree(&Tree::from_listing(128, &comb(128)));
    let four = |name, leaf| prune(name, 4, &P3_LISTING, p3(), leaf, changed(&[1, 2], &[0; 9]));
    vec![
        p7_leaf(0),
        p7_leaf(1),
        p7_leaf(2),
        p7_leaf(3),
        p7_leaf(4),
        p8_leaf("leaf 0 of P8's tree", 0, changed(&[1, 2, 3, 4, 5, 6], &pairs_and_leaf_0)),
        p8_leaf("leaf 1 of P8's tree", 1, changed(&[1, 2, 3, 4, 5, 6], &pairs_and_leaf_0)),
        p8_leaf("leaf 2 of P8's tree", 2, changed_listing(&[3, 4, 2, 5, 1, 6])),
        four("leaf 0 of four", 0),
        four("leaf 3 of four", 3),
        absent(6),
        absent(7),
        absent(256),
        absent(FAR),
        absent(1 << 32),
        absent(usize::MAX),
        prune("leaf 127", 128, &comb(128), largest.clone(), 127, changed_listing(&comb(127))),
        prune("leaf 0 of 128", 128, &comb(128), largest, 0, changed_listing(&comb(127))),
    ]
}

/// Something that is wrong with a change of P7's tree: number, figure, and how it comes about.
type Wrong = (u64, u64, fn(&mut Kept));

/// All that can be wrong with a graft and with a prune, in the order in which it is judged.
const WRONG: [Wrong; 20] = [
    (1, 0, |kept| kept.n = 2),
    (1, 0, |kept| kept.n = 129),
    (2, 0, |kept| kept.listing.truncate(5)),
    (2, 0, |kept| kept.listing.push(1)),
    (2, 0, |kept| kept.table.truncate(24)),
    (2, 0, |kept| kept.table.push(0)),
    (3, 0, |kept| kept.room = 3),
    (3, 0, |kept| kept.table_room = 15),
    (7, 1, |kept| kept.listing[1] = 0),
    (8, 3, |kept| kept.listing[3] = 3),
    (7, 4, |kept| kept.listing[4] = 7),
    (4, 3, |kept| kept.table[3 * 5 + 3] = 1),
    (4, 4, |kept| kept.table[4 * 5 + 4] = u32::MAX),
    (5, 256 + 3, |kept| kept.table[3 * 5 + 1] = 1),
    (5, 3 * 256 + 4, |kept| kept.table[3 * 5 + 4] = 2),
    (20, 0, |kept| kept.named = 8),
    (20, 0, |kept| put(&mut kept.table, 5, (0, 1), 4)),
    (20, 0, |kept| put(&mut kept.table, 5, (3, 4), 4)),
    (20, 0, |kept| put(&mut kept.table, 5, (0, 4), 1 << 16)),
    (20, 0, |kept| kept.table = scaled(&kept.table, 6)),
];

/// Each of these alone and with each that is judged later; and what the result's leaf count and its room decide.
fn refused_changes() -> Vec<Known> {
    let p7_kept = || kept(5, &P7_LISTING, p7(), 4);
    let mut cases = Vec::new();
    for (place, &(number, figure, spoil)) in WRONG.iter().enumerate() {
        for later in place..WRONG.len() {
            let mut wrong = p7_kept();
            if later > place {
                WRONG[later].2(&mut wrong);
            }
            spoil(&mut wrong);
            cases.push((Case::Graft(wrong.clone()), Due::Refused(number, figure)));
            cases.push((Case::Prune(wrong), Due::Refused(number, figure)));
        }
    }
    let too_many = kept(128, &comb(128), of_tree(&Tree::from_listing(128, &comb(128))), 1);
    cases.push((Case::Graft(Kept { table: vec![0; 3], ..too_many.clone() }), Due::Refused(1, 0)));
    cases.push((Case::Graft(too_many), Due::Refused(1, 0)));
    cases.push((Case::Prune(kept(3, &[1, 2], vec![0; 9], 1)), Due::Refused(1, 0)));
    cases.push((Case::Prune(kept(3, &[1], vec![0; 9], 1)), Due::Refused(1, 0)));
    for (room, table_room) in [(7, 36), (8, 35), (7, 60)] {
        cases.push((Case::Graft(Kept { room, table_room, ..p7_kept() }), Due::Refused(3, 0)));
    }
    for (room, table_room) in [(3, 16), (4, 15), (3, 60)] {
        cases.push((Case::Prune(Kept { room, table_room, ..p7_kept() }), Due::Refused(3, 0)));
    }
    let fitting = Kept { room: 4, table_room: 16, ..p7_kept() };
    cases.push((Case::Prune(fitting), changed(&P3_LISTING, &p3())));
    cases.into_iter().map(|(case, due)| Known { name: "what is wrong with a change", case, due }).collect()
}

/// What is looked at for a new table of counts: the tree and the table kept beside it, and the edge that is named.
fn looked_at(kept: Kept, new_table: Vec<u32>) -> LookedAt {
    let Kept { n, listing, table, named, room, .. } = kept;
    LookedAt { n, poll: COUNTS, listing, table, edge: named, new_table, room }
}

/// The same for a poll's table.
fn polled(at: LookedAt, poll: u32) -> LookedAt {
    LookedAt { poll, new_table: scaled(&at.new_table, 6), ..at }
}

/// The total that a look tells.
fn total(told: u64) -> Due {
    Due::Written(told, Vec::new())
}

/// P3's tree looked at for P7's table, of which it wants leaf 4 on edge 3.
fn p3_for_p7(edge: usize) -> LookedAt {
    looked_at(kept(4, &P3_LISTING, p3(), edge), p7())
}

/// What the edges of P3's tree tell then.
const P7_TOTALS: [i64; 5] = [14, 8, 0, 8, 14];

/// Worked looks at one edge.
fn looks() -> Vec<Known> {
    let (top, quartets_of_128) = (u64::from(u32::MAX), 10_668_000);
    let look = |name, at, due| Known { name, case: Case::Look(at), due };
    let three = |edge, new_table| looked_at(kept(3, &[1, 2], vec![0; 9], edge), new_table);
    let p7_edge = |name, edge, due| look(name, looked_at(kept(5, &P7_LISTING, p7(), edge), p8()), due);
    let p8_grafted = of_tree(&Tree::from_listing(7, &[2, 3, 7, 6, 4, 5, 8, 9, 1, 10]));
    let p8_for = |listing: &[u16], edge| looked_at(kept(6, listing, p8(), edge), p8_grafted.clone());
    let (p8_turned, largest) = ([4, 5, 2, 3, 6, 7, 1, 8], of_tree(&Tree::from_listing(127, &comb(127))));
    let of_largest = |edge, new_table| looked_at(kept(127, &comb(127), largest.clone(), edge), new_table);
    let mut known = vec![
        look("P3's table at its edge of three leaves", three(2, p3()), total(0)),
        look("P3's table at another edge", three(1, p3()), total(4)),
        look("zeros at an edge of three leaves", three(3, table(4, &[], 0)), total(2)),
        look("a look for more than 32 bits", three(3, table(4, &[], u32::MAX)), total(6 * top - 2)),
        look("no edge 0 to look at", three(0, p3()), Due::Refused(20, 0)),
        look("no edge 4 of three leaves to look at", three(4, p3()), Due::Refused(20, 0)),
        look("an edge of P8's tree looked at", p8_for(&P8_LISTING, 6), total(0)),
        look("the same edge of another listing", p8_for(&p8_turned, 6), total(0)),
        p7_edge("no edge 8 of five leaves to look at", 8, Due::Refused(20, 0)),
        p7_edge("no edge to look at in 16 bits", FAR + 1, Due::Refused(20, 0)),
        p7_edge("no edge to look at in 32 bits", (1 << 32) + 1, Due::Refused(20, 0)),
        p7_edge("no edge to look at at all", usize::MAX, Due::Refused(20, 0)),
        look("the last leaf looked at", of_largest(126, of_tree(&Tree::from_listing(128, &comb(128)))), total(0)),
        look("zeros at an edge of 127 leaves", of_largest(1, vec![0; 128 * 128]), total(2 * quartets_of_128)),
        look(
            "the greatest total of a look",
            of_largest(251, table(128, &[], u32::MAX)),
            total(8_128 * top - 2 * quartets_of_128),
        ),
    ];
    for (edge, told) in (1..).zip(P7_TOTALS) {
        known.push(look("P3's tree for P7's table", p3_for_p7(edge), total(told as u64)));
        known.push(look("P3's tree for a poll's table", polled(p3_for_p7(edge), POLL), total(6 * told as u64)));
    }
    known
}

/// Worked looks at all edges.
fn totals_of_all() -> Vec<Known> {
    let all = |name, at, totals: &[i64]| Known { name, case: Case::LookAll(at), due: Due::Written(0, totals.to_vec()) };
    let three = |new_table| looked_at(kept(3, &[1, 2], vec![0; 9], 0), new_table);
    let zeros = |poll| LookedAt { poll, new_table: vec![0; 25], ..p3_for_p7(0) };
    let mut known = vec![
        all("three leaves for P3's table", three(p3()), &[4, 0, 4]),
        all("three leaves for six times P3's table", polled(three(p3()), POLL), &[24, 0, 24]),
        all("three leaves for P3's table as a poll's", LookedAt { poll: POLL, ..three(p3()) }, &[14, 10, 14]),
        all("three leaves for six times P3's as counts", three(scaled(&p3(), 6)), &[14, 10, 14]),
        all("P3's tree for zeros", zeros(COUNTS), &[10; 5]),
        all("P3's tree for a poll's zeros", zeros(POLL), &[60; 5]),
        all("all edges of P3's tree for P7's table", p3_for_p7(0), &P7_TOTALS),
        all("room for five totals", LookedAt { room: 5, ..p3_for_p7(0) }, &P7_TOTALS),
        Known {
            name: "room for four totals",
            case: Case::LookAll(LookedAt { room: 4, ..p3_for_p7(0) }),
            due: Due::Refused(3, 0),
        },
    ];
    let sixths = P7_TOTALS.map(|told| 6 * told);
    known.extend(POLLS.map(|poll| all("all edges of P3's tree for a poll's", polled(p3_for_p7(0), poll), &sixths)));
    known
}

/// A tree is looked at with 3 to 127 leaves, for a poll's table with 3 to 31; and 1 is judged before 2.
fn look_counts() -> Vec<Known> {
    let mut cases = Vec::new();
    for (n, poll) in [(3, POLL), (31, POLL), (32, COUNTS)] {
        let [own, grafted] = [n, n + 1].map(|leaves| of_tree(&Tree::from_listing(leaves, &comb(leaves))));
        let new_table = scaled(&grafted, times(poll));
        let at = LookedAt { poll, ..looked_at(kept(n, &comb(n), own, n - 1), new_table) };
        cases.push((Case::LookAll(at.clone()), Due::Cells(0, vec![(n - 2, 0)])));
        cases.push((Case::Look(at), total(0)));
    }
    for (n, poll) in [(128, COUNTS), (2, POLL), (32, POLL), (33, POLL), (127, POLL), (128, POLL)] {
        let listing = if n == 2 { Vec::new() } else { comb(n) };
        let own = if n == 2 { vec![0; 4] } else { of_tree(&Tree::from_listing(n, &listing)) };
        for new_cells in [0, (n + 1) * (n + 1)] {
            let at = LookedAt { poll, ..looked_at(kept(n, &listing, own.clone(), 1), vec![0; new_cells]) };
            cases.push((Case::Look(at.clone()), Due::Refused(1, 0)));
            cases.push((Case::LookAll(at), Due::Refused(1, 0)));
        }
    }
    cases.into_iter().map(|(case, due)| Known { name: "leaf counts of a look", case, due }).collect()
}

/// Something that is wrong with a look: number, figure, and how it comes about.
type WrongLook = (u64, u64, Box<dyn Fn(&mut LookedAt)>);

/// What can be wrong with the size of the new table, and with its cells.
const WRONG_SIZES: [(u64, fn(&mut LookedAt)); 4] = [
    (1, |at| (at.n, at.poll) = (32, POLL)),
    (2, |at| at.new_table.truncate(25)),
    (2, |at| at.new_table.truncate(35)),
    (2, |at| at.new_table.push(0)),
];
const WRONG_CELLS: [(u64, u64, fn(&mut LookedAt)); 5] = [
    (4, 2, |at| at.new_table[2 * 6 + 2] = 1),
    (4, 5, |at| at.new_table[5 * 6 + 5] = u32::MAX),
    (5, 5, |at| at.new_table[5 * 6] = 0),
    (5, 256 + 3, |at| at.new_table[3 * 6 + 1] = 2),
    (5, 4 * 256 + 5, |at| at.new_table[4 * 6 + 5] = 1 << 16),
];

/// What is wrong with a change is wrong with a look, too.
fn wrong_kept(&(number, figure, spoil): &Wrong) -> WrongLook {
    let spoil_kept = move |at: &mut LookedAt| {
        let mut kept = Kept { room: at.room, ..at.copy() };
        spoil(&mut kept);
        *at = LookedAt { poll: at.poll, ..looked_at(kept, at.new_table.clone()) };
    };
    (number, figure, Box::new(spoil_kept))
}

/// All that can be wrong with a look, in the order in which it is judged: 1, 2, then the rest of what can be wrong with
/// a change, and last the cells of the new table.
fn wrong_looks() -> Vec<WrongLook> {
    let sizes = WRONG_SIZES.map(|(number, spoil)| -> WrongLook { (number, 0, Box::new(spoil)) });
    let cells = WRONG_CELLS.map(|(number, figure, spoil)| -> WrongLook { (number, figure, Box::new(spoil)) });
    let mut wrong: Vec<WrongLook> = WRONG.iter().map(wrong_kept).chain(sizes).collect();
    wrong.sort_by_key(|&(number, ..)| number.min(3));
    wrong.extend(cells);
    wrong
}

/// Each of these alone and with each that is judged later, as far as it is in what a look is given: one edge is looked
/// at without a room, and all without an edge; for tables of counts and for polls'.
fn refused_looks() -> Vec<Known> {
    type Given = fn(LookedAt) -> LookedAt;
    let edge: (fn(LookedAt) -> Case, Given) = (Case::Look, |at| LookedAt { room: 0, ..at });
    let all: (fn(LookedAt) -> Case, Given) = (Case::LookAll, |at| LookedAt { edge: 0, ..at });
    let mut known = Vec::new();
    for ((case, given), poll) in [(edge, COUNTS), (edge, POLL), (all, COUNTS), (all, POLL)] {
        let spoilt = |spoils: &[&WrongLook]| {
            let mut at = LookedAt { poll, ..looked_at(kept(5, &P7_LISTING, p7(), 4), p8()) };
            spoils.iter().for_each(|(_, _, spoil)| spoil(&mut at));
            given(at)
        };
        let mut wrong = wrong_looks();
        wrong.retain(|wrong| spoilt(&[wrong]) != spoilt(&[]));
        for (place, first) in wrong.iter().enumerate() {
            known.extend(wrong[place..].iter().map(|later| Known {
                name: "what is wrong with a look",
                case: case(spoilt(&[later, first])),
                due: Due::Refused(first.0, first.1),
            }));
        }
    }
    known
}

/// A set of which some bytes are named; the others are 0.
fn set(named: &[(usize, u8)]) -> Vec<u8> {
    let mut bytes = vec![0; SET_BYTES];
    named.iter().for_each(|&(place, byte)| bytes[place] = byte);
    bytes
}

/// A set whose bytes are all alike.
fn alike(byte: u8) -> Vec<u8> {
    vec![byte; SET_BYTES]
}

/// What two sets make joined and intersected, and whether they are equal.
fn sets() -> Vec<Known> {
    let (inner, outer) = ((0, 0b11000), (0, 0b11100));
    let (leaf_0, leaf_63, leaf_64, last) = ((0, 1), (7, 0x80), (8, 1), (SET_BYTES - 1, 0x80));
    let (none, all) = (alike(0), alike(0xFF));
    let sets = [
        ("the splits of P7's tree", set(&[inner]), set(&[outer]), set(&[outer]), set(&[inner])),
        ("a split and the leaf beside it", set(&[inner]), set(&[(0, 0b100)]), set(&[outer]), none.clone()),
        ("no leaf", none.clone(), none.clone(), none.clone(), none.clone()),
        ("every leaf", all.clone(), all.clone(), all.clone(), all.clone()),
        ("every leaf and none", all.clone(), none.clone(), all.clone(), none.clone()),
        ("every second leaf and the others", alike(0x55), alike(0xAA), all.clone(), none.clone()),
        ("half of each byte", alike(0x3C), alike(0x0F), alike(0x3F), alike(0x0C)),
        ("leaf 0 and every leaf", set(&[leaf_0]), all.clone(), all.clone(), set(&[leaf_0])),
        ("the last leaf and every leaf", set(&[last]), all.clone(), all, set(&[last])),
        ("leaf 0 and no leaf", set(&[leaf_0]), none.clone(), set(&[leaf_0]), none.clone()),
        ("the last leaf and no leaf", set(&[last]), none.clone(), set(&[last]), none.clone()),
        ("the last leaf twice", set(&[last]), set(&[last]), set(&[last]), set(&[last])),
        ("the first leaf and the last", set(&[leaf_0]), set(&[last]), set(&[leaf_0, last]), none.clone()),
        ("leaves 63 and 64", set(&[leaf_63]), set(&[leaf_64]), set(&[leaf_63, leaf_64]), none.clone()),
        ("leaf 63 and both", set(&[leaf_63]), set(&[leaf_63, leaf_64]), set(&[leaf_63, leaf_64]), set(&[leaf_63])),
        ("leaf 64 and both", set(&[leaf_64]), set(&[leaf_63, leaf_64]), set(&[leaf_63, leaf_64]), set(&[leaf_64])),
        ("leaves 0 and 64", set(&[leaf_0]), set(&[leaf_64]), set(&[leaf_0, leaf_64]), none),
    ];
    let known = |(name, a, b, joined, common): (&'static str, Vec<u8>, Vec<u8>, Vec<u8>, Vec<u8>)| {
        let (room, equal) = (SET_BYTES, u64::from(a == b));
        [
            (Case::SetJoin { a: a.clone(), b: b.clone(), room }, Due::Written(0, wide(&joined))),
            (Case::SetJoin { a: b.clone(), b: a.clone(), room }, Due::Written(0, wide(&joined))),
            (Case::SetIntersect { a: a.clone(), b: b.clone(), room }, Due::Written(0, wide(&common))),
            (Case::SetIntersect { a: b.clone(), b: a.clone(), room }, Due::Written(0, wide(&common))),
            (Case::SetEqual { a: b.clone(), b: a.clone() }, Due::Written(equal, Vec::new())),
            (Case::SetEqual { a, b }, Due::Written(equal, Vec::new())),
        ]
        .map(|(case, due)| Known { name, case, due })
    };
    sets.into_iter().flat_map(known).collect()
}

/// Lengths of two sets, each with each, and rooms: 2 is judged before 3.
fn set_sizes() -> Vec<Known> {
    let mut cases = Vec::new();
    for lengths in SET_LENGTHS.iter().flat_map(|&a| SET_LENGTHS.map(|b| [a, b])) {
        let ([a, b], fit) = (lengths.map(|length| vec![0x55; length]), lengths == [SET_BYTES; 2]);
        let equal = Case::SetEqual { a: a.clone(), b: b.clone() };
        cases.push((equal, if fit { Due::Written(1, Vec::new()) } else { Due::Refused(2, 0) }));
        for room in [0, 1, SET_BYTES - 1, SET_BYTES, SET_BYTES + 1, SET_BYTES + 24] {
            let due = || match fit {
                false => Due::Refused(2, 0),
                true if room < SET_BYTES => Due::Refused(3, 0),
                true => Due::Written(0, wide(&alike(0x55))),
            };
            cases.push((Case::SetJoin { a: a.clone(), b: b.clone(), room }, due()));
            cases.push((Case::SetIntersect { a: a.clone(), b: b.clone(), room }, due()));
        }
    }
    cases.into_iter().map(|(case, due)| Known { name: "lengths of two sets, and rooms", case, due }).collect()
}

fn polls() -> Vec<Known> {
    let poll = |name, records, due| Known { name, case: Case::Poll { n: 5, records, room: 25 }, due };
    let mut unresolved = p7_poll();
    unresolved.iter_mut().for_each(|record| record.code = 3);
    let mut both = p7_poll();
    both[3] = Record { leaves: [0, 2, 3, 3], code: 7 };
    let mut code_first = both.clone();
    code_first[2].code = 255;
    let mut largest: Vec<Record> =
        quartets(32).map(|four| Record { leaves: four.map(|leaf| leaf as u8), code: 3 }).collect();
    largest[35_959].code = 7;
    let four = |name, code, cells: [u32; 6], due: fn(Vec<i64>) -> Due| {
        let pairs = [(0, 1), (0, 2), (0, 3), (1, 2), (1, 3), (2, 3)];
        let named: Vec<(usize, usize, u32)> = pairs.iter().zip(cells).map(|(&(i, j), cell)| (i, j, cell)).collect();
        let records = vec![Record { leaves: [0, 1, 2, 3], code }];
        Known { name, case: Case::Poll { n: 4, records, room: 16 }, due: due(wide(&table(4, &named, 0))) }
    };
    let (written, refused): (fn(Vec<i64>) -> Due, fn(Vec<i64>) -> Due) =
        (|cells| Due::Written(0, cells), |_| Due::Refused(11, 0));
    vec![
        four("code 0 of four leaves", 0, [6, 0, 0, 0, 0, 6], written),
        four("code 1 of four leaves", 1, [0, 6, 0, 0, 6, 0], written),
        four("code 2 of four leaves", 2, [0, 0, 6, 6, 0, 0], written),
        four("code 3 of four leaves", 3, [2; 6], written),
        four("code 4 of four leaves", 4, [3, 3, 0, 0, 3, 3], written),
        four("code 5 of four leaves", 5, [3, 0, 3, 3, 0, 3], written),
        four("code 6 of four leaves", 6, [0, 3, 3, 3, 3, 0], written),
        four("code 7 of four leaves", 7, [0; 6], refused),
        four("code 255 of four leaves", 255, [0; 6], refused),
        Known {
            name: "the last record of the largest poll",
            case: Case::Poll { n: 32, records: largest, room: 1_024 },
            due: Due::Refused(11, 35_959),
        },
        poll("the poll of P7's tree", p7_poll(), Due::Written(0, wide(&scaled(&p7(), 6)))),
        poll("nothing resolved", unresolved, Due::Written(0, wide(&table(5, &[], 6)))),
        poll("leaves before the code", both, Due::Refused(10, 3)),
        poll("record by record", code_first, Due::Refused(11, 2)),
    ]
}

/// Every word that says a poll's: what is not 0.
const POLLS: [u32; 6] = [POLL, 2, 255, 256, 1 << 16, u32::MAX];

/// P7's table and six times it, taken for counts and for a poll's; and tables that are close to six times it.
fn polled_tables() -> Vec<Known> {
    let (n, room) = (5, 6);
    let merges: Vec<u16> = vec![3, 4, 0, 1, 2, 3, 0, 2];
    let sixths = scaled(&p7(), 6);
    let rebuilt = || Due::Written(REBUILT, wide(&P7_LISTING));
    let changed = |i, j, value| {
        let mut cells = sixths.clone();
        put(&mut cells, n, (i, j), value);
        cells
    };
    let mut cases = Vec::new();
    for poll in POLLS {
        let table = sixths.clone();
        let gaps = Case::Gap { n, poll, table: table.clone(), listing: P7_LISTING.into(), room: 25 };
        cases.push((gaps, Due::Written(0, vec![0; 25])));
        cases.push((Case::Guided { n, poll, table: table.clone(), merges: merges.clone(), room }, rebuilt()));
        cases.push((Case::Guess { n, poll, table: table.clone(), room }, rebuilt()));
        cases.push((Case::Rebuild { n, poll, table, room }, rebuilt()));
        cases.push((Case::Rebuild { n, poll, table: p7(), room }, Due::Refused(6, 0)));
    }
    for (table, step) in [(p7(), 0), (changed(0, 1, 19), 1), (changed(0, 1, 3), 1), (changed(0, 3, 1), 3)] {
        cases.push((Case::Rebuild { n, poll: POLL, table: table.clone(), room }, Due::Refused(6, 0)));
        cases.push((Case::Guided { n, poll: POLL, table, merges: merges.clone(), room }, Due::Refused(12, step)));
    }
    let (table, listing) = (sixths.clone(), P7_LISTING.to_vec());
    cases.push((Case::Rebuild { n, poll: COUNTS, table: table.clone(), room }, Due::Refused(6, 0)));
    cases.push((Case::Guided { n, poll: COUNTS, table: table.clone(), merges, room }, Due::Refused(12, 0)));
    cases.push((Case::Gap { n, poll: COUNTS, table, listing, room: 25 }, Due::Cells(0, vec![(1, 15), (3, 0)])));
    cases.into_iter().map(|(case, due)| Known { name: "P7's table and a poll's", case, due }).collect()
}

/// A poll's table has 4 to 32 leaves, and 1 is judged before 2. At 32 the gap has its lower end.
fn polled_counts() -> Vec<Known> {
    let mut cases = Vec::new();
    for n in [3, 33, 128] {
        for cells in [0, n * n] {
            let (listing, table, merges) = (comb(n), vec![0; cells], vec![0; 2 * (n - 1)]);
            cases.push((Case::Gap { n, poll: POLL, table: table.clone(), listing, room: n * n }, Due::Refused(1, 0)));
            cases.push((Case::Rebuild { n, poll: POLL, table: table.clone(), room: 2 * n }, Due::Refused(1, 0)));
            cases.push((Case::Guess { n, poll: POLL, table: table.clone(), room: 2 * n }, Due::Refused(1, 0)));
            cases.push((Case::Guided { n, poll: POLL, table, merges, room: 2 * n }, Due::Refused(1, 0)));
        }
    }
    let ends = |n: usize, end| {
        let gap = |table| Case::Gap { n, poll: POLL, table, listing: comb(n), room: n * n };
        let top = table(n, &[(0, n - 1, u32::MAX)], 0);
        let upper = vec![(1, end), (n - 1, u32::MAX.into())];
        [(gap(vec![0; n * n]), Due::Cells(0, vec![(1, end), (n - 1, 0)])), (gap(top), Due::Cells(0, upper))]
    };
    cases.extend(ends(4, -6));
    cases.extend(ends(32, -2_610));
    cases.into_iter().map(|(case, due)| Known { name: "leaf counts of a poll's table", case, due }).collect()
}

/// Three leaves whose last name runs past the offset; with the bytes of the cells it would equal the first.
fn name_past_offset() -> Vec<u8> {
    let mut bytes = b"\x03xaa\x01b\x03x".to_vec();
    let offset = bytes.len() as u32;
    bytes.extend(b"aaaaaa");
    bytes.extend(trailer(3, offset));
    bytes
}

/// Three leaves with one byte between the last name and the offset.
fn byte_left_over() -> Vec<u8> {
    [&b"\x01a\x01b\x01c\x01"[..], &[0; 6], &trailer(3, 7)].concat()
}

fn sheets() -> Vec<Known> {
    let rebuild = |name, room, due| Known { name, case: Case::RebuildSheet { sheet: PAPER_SHEET.into(), room }, due };
    let name = |name, sheet, leaf, due| Known { name, case: Case::SheetName { sheet, leaf }, due };
    let read = |name, sheet, due| Known { name, case: Case::SheetTable { sheet, room: 128 * 128 }, due };
    let check = |name, sheet, due| Known { name, case: Case::CheckSheet { sheet }, due };
    let refused = |name, sheet, number, figure| read(name, sheet, Due::Refused(number, figure));
    let (forty, forty_one) = ([b'b'; 40], [b'b'; 41]);
    let p7_bytes = P7_LISTING.iter().flat_map(|&child| [i64::from(child), 0]).collect();
    let one_byte_more = [&b"a"[..], &longest_sheet()].concat();
    vec![
        rebuild("the paper's sheet", 12, Due::Written(0, p7_bytes)),
        rebuild("the paper's sheet and a short output", 11, Due::Refused(3, 0)),
        check("the paper's sheet checked", PAPER_SHEET.into(), Due::Written(5, Vec::new())),
        check("the longest sheet checked", longest_sheet(), Due::Written(128, Vec::new())),
        check("equal names checked", three([b"a", b"b", b"b"]), Due::Refused(16, 2)),
        read("the paper's sheet as a table", PAPER_SHEET.into(), Due::Written(5, wide(&p7()))),
        name("the name of leaf 4", PAPER_SHEET.into(), 4, Due::Written(256 * 9 + 1, Vec::new())),
        name("leaf 5 of five", PAPER_SHEET.into(), 5, Due::Refused(9, 0)),
        name("a name of 40 bytes", three([b"a", &forty, b"c"]), 1, Due::Written(256 * 3 + 40, Vec::new())),
        name("a name of 41 bytes", three([b"a", &forty_one, b"c"]), 0, Due::Refused(15, 1)),
        name("capital and small letters differ", three([b"a", b"A", b"-."]), 2, Due::Written(256 * 5 + 2, Vec::new())),
        read("the longest sheet", longest_sheet(), Due::Cells(128, vec![(0, 0), (128 * 128 - 1, 0)])),
        refused("a sheet of 21,513 bytes", one_byte_more, 13, 0),
        refused("an empty sheet", Vec::new(), 13, 0),
        refused("seven bytes", trailer(3, 0)[1..].into(), 13, 0),
        refused("1 before 14", trailer(2, 9), 1, 0),
        refused("14", trailer(3, 9), 14, 0),
        refused("an offset that would fit in 32 bits", trailer(3, u32::MAX - 5), 14, 0),
        refused("no names", [&[0; 6][..], &trailer(3, 0)].concat(), 15, 0),
        refused("equal names", three([b"a", b"b", b"a"]), 16, 2),
        refused("a bad byte", three([b"a", b"b_", b"a"]), 15, 1),
        refused("an equal name before a bad one", three([b"a", b"a", b"_"]), 16, 1),
        refused("a name past the offset that would equal an earlier one", name_past_offset(), 15, 2),
        refused("names that end before the offset", byte_left_over(), 15, 3),
    ]
}

fn exports() -> Vec<Known> {
    let export = |name, sheet: &[u8], listing: &[u16], room, due| Known {
        name,
        case: Case::Export { sheet: sheet.into(), listing: listing.into(), room },
        due,
    };
    let written = |text: &[u8]| Due::Written(text.len() as u64, wide(text));
    let (equal, bad) = (three([b"a", b"b", b"a"]), three([b"a", b"_", b"a"]));
    let (room, longest) = (P7_TEXT.len(), 128 * 40 + 3 * 128 - 4);
    vec![
        export("the paper's export", &PAPER_SHEET, &P7_LISTING, room, written(P7_TEXT)),
        export("the same of another listing", &PAPER_SHEET, &[4, 3, 5, 2, 6, 1], room, written(P7_TEXT)),
        export("export of three leaves", &three([b"a", b"b", b"c"]), &[2, 1], 8, written(b"(a,b,c);")),
        export("export of a node first", &four(), &[1, 3, 4, 2], 14, written(b"(a0,(b,d),-.);")),
        export("the longest export", &longest_sheet(), &comb(128), longest, Due::Cells(longest as u64, vec![])),
        export("export with a byte too few", &PAPER_SHEET, &P7_LISTING, room - 1, Due::Refused(3, 0)),
        export("the longest with a byte too few", &longest_sheet(), &comb(128), longest - 1, Due::Refused(3, 0)),
        export("2 before 14", &trailer(3, 9), &[1], 8, Due::Refused(2, 0)),
        export("14 before 7", &trailer(3, 9), &[0, 0], 8, Due::Refused(14, 0)),
        export("7 before 15", &bad, &[1, 3], 8, Due::Refused(7, 1)),
        export("8 before 16", &equal, &[2, 2], 8, Due::Refused(8, 1)),
        export("15 before 3", &bad, &[1, 2], 0, Due::Refused(15, 1)),
        export("16 before 3", &equal, &[1, 2], 0, Due::Refused(16, 2)),
    ]
}

/// A sheet of four leaves.
fn four() -> Vec<u8> {
    sheet(&[b"a0".to_vec(), b"b".to_vec(), b"-.".to_vec(), b"d".to_vec()], &[0; 6])
}

/// A text with the paper's sheet.
fn import(name: &'static str, text: impl Into<Vec<u8>>, due: Due) -> Known {
    Known { name, case: Case::Import { sheet: PAPER_SHEET.into(), text: text.into(), room: 6 }, due }
}

fn imports() -> Vec<Known> {
    let same = |text: &'static str| import("a text of P7's tree", text, Due::Written(IMPORTED, wide(&P7_LISTING)));
    let broken = |text: &'static str, offset| import("a broken text", text, Due::Refused(17, offset));
    let refused = |name, text: &'static str, number| import(name, text, Due::Refused(number, 0));
    let with = |name, sheet: Vec<u8>, text: &[u8], room, due| Known {
        name,
        case: Case::Import { sheet, text: text.into(), room },
        due,
    };
    let three_leaves = || Due::Written(IMPORTED, vec![1, 2]);
    let (equal, bad) = (three([b"a", b"b", b"a"]), three([b"a", b"_", b"a"]));
    vec![
        same("(a,b,(c,(d,e)));"),
        same("((a,b),(c,(d,e)));"),
        same("(e,(d,(c,(b,a))));"),
        same("((d,e),c,(b,a));"),
        same("(((e,d),c),b,a);"),
        same(" \t\r\n( a\n,b :1e-5\t, (c:0,(d,e):-1.5E+10 ) :7\r) :. ; \n"),
        same("(a:e,b:E,(c:--,(d:+,e:.):0):1):2;"),
        broken("", 0),
        broken(" \n", 2),
        broken("a;", 0),
        broken("  a;", 2),
        broken(";", 0),
        broken("();", 1),
        broken("( );", 2),
        broken("(,a);", 1),
        broken("(a,);", 3),
        broken("(a,,b);", 3),
        broken("(a b);", 3),
        broken("(a(b,c));", 2),
        broken("((a,b)(c,d));", 6),
        broken("(a: 1);", 3),
        broken("(a:,b);", 3),
        broken("(a:1:2);", 4),
        broken("(a:1 2);", 5),
        broken("(a:1x);", 4),
        broken("(:1);", 1),
        broken("(a,b)x;", 5),
        broken("((a,b)c,d);", 6),
        broken("((a,b)1,d);", 6),
        broken("(a,b)) ;", 5),
        broken("(a,b),", 5),
        broken("(a,b):;", 6),
        broken("('a',b);", 1),
        broken("(\"a\",b);", 1),
        broken("(a[x],b);", 2),
        broken("[x](a,b);", 0),
        broken("(a_b,c);", 2),
        broken("(a\x0B,c);", 2),
        broken("(a\x0C,c);", 2),
        broken("(a\u{A0},c);", 2),
        broken("(a\0,b);", 2),
        broken("(\0a,b);", 1),
        broken("(a,b)\0;", 5),
        broken("(a,b,(c,(d,e)));\0", 16),
        broken("\0", 0),
        broken("(a,b,(c,(d,e)));;", 16),
        broken("(a,b,(c,(d,e))); (", 17),
        broken("(a", 2),
        broken("(a:", 3),
        broken("(a:1", 4),
        broken("(a,b,(c,(d,e)))", 15),
        broken("(a,b,(c,(d,e))) \n", 17),
        broken("(a,b,(c,(d,e))):1", 17),
        refused("a node of one part", "(a);", 18),
        refused("a node of one part in a node", "((a),b,(c,(d,e)));", 18),
        refused("a top of one part", "((a,b));", 18),
        refused("a top of four parts", "(a,b,c,(d,e));", 18),
        refused("a node of three parts", "((a,b,c),(d,e));", 18),
        refused("five parts", "(a,b,c,d,e);", 18),
        refused("a name missing", "(a,b);", 19),
        refused("the last name missing", "(a,b,(c,d));", 19),
        refused("the first name missing", "(b,c,(d,e));", 19),
        refused("a name too many", "(a,b,(c,(d,(e,f))));", 19),
        refused("a name twice", "(a,b,(c,(d,d)));", 19),
        refused("a name twice and none missing", "(a,b,(c,(d,(e,a))));", 19),
        refused("an unknown name", "(a,b,(c,(d,x)));", 19),
        refused("another letter", "(a,b,(c,(d,E)));", 19),
        refused("a name that goes on", "(a,b,(c,(d,ee)));", 19),
        refused("a blank before a colon", "(a :1 , b );", 19),
        refused("a name of 41 bytes", "(a,bbbbbbbbbbbbbbbbbbbbbbbbbbbbbbbbbbbbbbbbb);", 19),
        import("a break after a node of three parts", "((x,x,x),y", Due::Refused(17, 10)),
        import("a break after an unknown name", "(x,y)z", Due::Refused(17, 5)),
        refused("a node of one part after a name twice", "(a,a,(b));", 18),
        with("names like lengths", three([b"1e-3", b"-", b"."]), b"(-:-,.:.,1e-3:1e-3);", 2, three_leaves()),
        with("names that begin others", three([b"a", b"ab", b"abc"]), b"(abc,(ab,a));", 2, three_leaves()),
        with("a node first", four(), b"((b,d),(-.,a0));", 4, Due::Written(IMPORTED, vec![1, 3, 4, 2])),
        with("14 before a short output", trailer(3, 9), b"", 0, Due::Refused(14, 0)),
        with("a short output before 15", bad.clone(), b"", 1, Due::Refused(3, 0)),
        with("15 before 17", bad, b"", 2, Due::Refused(15, 1)),
        with("16 before 17", equal, b"", 2, Due::Refused(16, 2)),
    ]
}

/// A text with every two neighbours of these parts in a bracket, and every two of these, until all stand in one.
fn paired(mut parts: Vec<String>) -> String {
    while parts.len() > 1 {
        let pair =
            |pair: &[String]| if pair.len() == 1 { pair[0].clone() } else { format!("({},{})", pair[0], pair[1]) };
        parts = parts.chunks(2).map(pair).collect();
    }
    parts.concat()
}

/// The comb of these names with a two-way top: one bracket fewer than names.
fn comb_text(names: &[String]) -> String {
    let (last, others) = names.split_last().expect("a name");
    let opened: String = others.iter().map(|name| format!("({name},")).collect();
    format!("{opened}{last}{};", ")".repeat(others.len()))
}

/// Texts that are long, deep or wide: there is no limit but that on the depth, and no counter that wraps.
fn long_texts() -> Vec<Known> {
    const MANY: usize = 1_000_000;
    let blanks = " \n".repeat(MANY / 2);
    let names: Vec<String> = (0..129).map(|leaf| format!("strain-{leaf:033}")).collect();
    let longest = |name, text: String, due| Known {
        name,
        case: Case::Import { sheet: longest_sheet(), text: text.into(), room: 252 },
        due,
    };
    let same = || Due::Written(IMPORTED, wide(&P7_LISTING));
    let drawn_comb = || Due::Written(IMPORTED, wide(&comb(128)));
    let (deepest, one_more) = (comb_text(&names[..128]), comb_text(&names));
    let own_offset = one_more.match_indices('(').nth(127).expect("128 brackets").0 as u64;
    let a_times = |times| format!("({},(b,(c,(d,e))));", paired(vec!["a".into(); times]));
    let wide_node = |parts: usize| format!("((a{}),b,(c,(d,e)));", ",a".repeat(parts - 1));
    vec![
        longest("a comb 127 deep", deepest.clone(), drawn_comb()),
        longest("a comb 127 deep, with blanks", deepest.replace(',', " , "), drawn_comb()),
        longest("a comb 128 deep", one_more.clone(), Due::Refused(17, own_offset)),
        longest(
            "a comb 128 deep that stops there",
            one_more[..own_offset as usize].into(),
            Due::Refused(17, own_offset),
        ),
        longest("a name too many", format!("({},{}", names[0], &comb_text(&names[1..])[1..]), Due::Refused(19, 0)),
        import("127 nodes of one part", format!("{}a{};", "(".repeat(127), ")".repeat(127)), Due::Refused(18, 0)),
        import("128 brackets", format!("{}a{};", "(".repeat(128), ")".repeat(128)), Due::Refused(17, 127)),
        import("brackets alone", "(".repeat(MANY), Due::Refused(17, 127)),
        import("as many closing ones", format!("(a{}", ")".repeat(MANY)), Due::Refused(17, 3)),
        import("127 deep again and again", format!("({});", vec![chain(126); 3].join(",")), Due::Refused(18, 0)),
        import("128 deep at last", format!("({},{});", chain(126), chain(127)), Due::Refused(17, 381)),
        import("blanks alone", blanks.clone(), Due::Refused(17, MANY as u64)),
        import("blanks before", format!("{blanks}(a,b,(c,(d,e)));"), same()),
        import("blanks behind", format!("(a,b,(c,(d,e)));{blanks}"), same()),
        import("blanks within", format!("(a,b,({blanks}c,(d,e{blanks}))){blanks};"), same()),
        import("a break behind blanks", format!("{blanks}(a,b,(c,(d,e)))){blanks}"), Due::Refused(17, 1_000_015)),
        import("no semicolon behind blanks", format!("(a,b,(c,(d,e))){blanks}"), Due::Refused(17, 1_000_015)),
        import("a long length", format!("(a,b:{},(c,(d,e)));", "1".repeat(MANY)), same()),
        import("a long name", format!("(a,b,(c,(d,{})));", "e".repeat(MANY)), Due::Refused(19, 0)),
        import("a million parts", format!("(a{});", ",a".repeat(MANY - 1)), Due::Refused(18, 0)),
        import("a million parts and a break", format!("(a{},);", ",a".repeat(MANY - 1)), Due::Refused(17, 2_000_001)),
        import("256 parts and two", wide_node(258), Due::Refused(18, 0)),
        import("65,536 parts and two", wide_node(65_538), Due::Refused(18, 0)),
        import("256 names and one", a_times(257), Due::Refused(19, 0)),
        import("65,536 names and one", a_times(65_537), Due::Refused(19, 0)),
        import("names and NUL bytes", format!("({}\0", "a,".repeat(MANY)), Due::Refused(17, 2_000_001)),
    ]
}

/// A name in so many brackets of one part.
fn chain(brackets: usize) -> String {
    format!("{}a{}", "(".repeat(brackets), ")".repeat(brackets))
}
