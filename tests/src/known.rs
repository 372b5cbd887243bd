//! Document 01's known graphs and stocks, G1 to G5 and S1 to S7, each with every answer that is right, and stocks with isolated cameras.
//!   graphs, stocks          document 01's
//!   isolated_stocks         stocks with cameras that have no fit (document 02, L2), each byte of their sheets written out
//!   KnownStock::answers     what a stock may get: each of its plans, directly followed by its sheet
//!   isolated_examples       those of them that examples/ has
//!   budgets, large_budgets  these stocks and others with budgets (document 02, L4), each header written out; those that cost more
//!   S5_BUDGETS              the answers to S5 that examples/ has, each byte written out
//!   graph_files, stock_files    their files
//!   graph, stock            a graph with source 0, a stock, from their numbers
//!   G3, G4, G5, S7          arcs and fits that other cases are made of

use crate::frames::{barrier_file, path_file, plan_file, sheet_file, Pair};
use crate::graph_trial::Graph;
use crate::shapes::row;
use crate::stock_trial::Stock;

pub struct KnownGraph {
    pub name: &'static str,
    pub graph: Graph,
    pub answers: Vec<Vec<u8>>,
}

pub struct KnownStock {
    pub name: &'static str,
    pub stock: Stock,
    pub sheet: Vec<u8>,
    pub plans: Vec<Vec<u8>>,
}

impl KnownStock {
    pub fn answers(&self) -> Vec<Vec<u8>> {
        self.plans.iter().map(|plan| [&plan[..], &self.sheet].concat()).collect()
    }
}

pub const G3: [Pair; 2] = [(0, 2), (3, 1)];
pub const G4: [Pair; 4] = [(0, 2), (3, 1), (2, 3), (2, 3)];
pub const G5: [Pair; 6] = [(0, 2), (3, 1), (2, 3), (2, 3), (0, 2), (3, 1)];
pub const S7: [Pair; 7] = [(0, 1), (0, 2), (1, 2), (2, 3), (3, 4), (3, 5), (4, 5)];

pub fn graph(pairs: usize, arcs: &[Pair]) -> Graph {
    Graph { pairs, source: 0, arcs: arcs.to_vec() }
}

pub fn stock(cameras: usize, fits: &[Pair], lit: &[Pair]) -> Stock {
    Stock { cameras, fits: fits.to_vec(), lit: lit.to_vec() }
}

pub fn graphs() -> Vec<KnownGraph> {
    let barred = |name, graph, classes: &[usize]| KnownGraph { name, graph, answers: vec![barrier_file(classes)] };
    let open = |name, graph, paths: &[&[usize]]| {
        let answers = paths.iter().map(|arcs| path_file(arcs)).collect();
        KnownGraph { name, graph, answers }
    };
    vec![
        KnownGraph { name: "G1", graph: graph(1, &[]), answers: vec![b"31\n320001\n320102\n3F0002\n".to_vec()] },
        open("G2", graph(1, &[(0, 1), (0, 1)]), &[&[0], &[1]]),
        barred("G3", graph(2, &G3), &[1, 2, 1, 2]),
        barred("G4", graph(2, &G4), &[1, 2, 3, 3]),
        open("G5", graph(2, &G5), &[&[0, 2, 5], &[0, 3, 5], &[4, 2, 1], &[4, 3, 1]]),
    ]
}

fn known(name: &'static str, stock: Stock, sheet: &[u8], plans: &[&[Pair]]) -> KnownStock {
    let plans = plans.iter().map(|pairs| plan_file(pairs)).collect();
    KnownStock { name, stock, sheet: sheet.to_vec(), plans }
}

pub fn stocks() -> Vec<KnownStock> {
    let triangle = [(0, 1), (0, 2), (1, 2)];
    let star = [(0, 1), (0, 2), (0, 3)];
    let chain = [(0, 1), (1, 2), (2, 3)];
    let ring = [(0, 1), (0, 4), (1, 2), (2, 3), (3, 4)];
    let of_ring: [&[Pair]; 5] = [&[(0, 1), (2, 3)], &[(0, 1), (3, 4)], &[(0, 4), (1, 2)], &[(0, 4), (2, 3)], &[(1, 2), (3, 4)]];
    vec![
        known("S1", stock(0, &[], &[]), b"4100\n4F0000\n", &[&[]]),
        known("S2", stock(2, &[(0, 1)], &[]), &sheet_file(1, &[2, 2]), &[&[(0, 1)]]),
        known("S3", stock(3, &triangle, &[]), b"4101\n430000\n430100\n430200\n4F0003\n", &[&[(0, 1)], &[(0, 2)], &[(1, 2)]]),
        known("S4", stock(4, &star, &[]), &sheet_file(1, &[1, 0, 0, 0]), &[&[(0, 1)], &[(0, 2)], &[(0, 3)]]),
        known("S5", stock(4, &chain, &[(1, 2)]), &sheet_file(2, &[2; 4]), &[&[(0, 1), (2, 3)]]),
        known("S6", stock(5, &ring, &[]), &sheet_file(2, &[0; 5]), &of_ring),
        known("S7", stock(6, &S7, &[]), &sheet_file(3, &[2; 6]), &[&[(0, 1), (2, 3), (4, 5)]]),
    ]
}

pub fn isolated_stocks() -> Vec<KnownStock> {
    let mut all = isolated_examples();
    all.extend(few_cameras());
    all.extend(four_marks());
    all.extend(largest_stocks());
    all
}

/// Under their names in the folder.
pub fn isolated_examples() -> Vec<KnownStock> {
    vec![
        known("isolated_alone", stock(1, &[], &[]), b"4100\n430003\n4F0001\n", &[&[]]),
        known("isolated_third", stock(3, &[(0, 1)], &[]), b"4101\n430002\n430102\n430203\n4F0003\n", &[&[(0, 1)]]),
        known(
            "four_marks",
            stock(8, &[(1, 2), (1, 3), (1, 4), (5, 6)], &[(1, 2)]),
            b"4102\n430003\n430101\n430200\n430300\n430400\n430502\n430602\n430703\n4F0008\n",
            &[&[(1, 2), (5, 6)]],
        ),
    ]
}

fn few_cameras() -> Vec<KnownStock> {
    let triangle = [(0, 1), (0, 2), (1, 2)];
    let ring = [(0, 1), (0, 6), (1, 3), (3, 4), (4, 6)];
    let of_ring: [&[Pair]; 5] = [&[(0, 1), (3, 4)], &[(0, 1), (4, 6)], &[(0, 6), (1, 3)], &[(0, 6), (3, 4)], &[(1, 3), (4, 6)]];
    vec![
        known("two cameras, and no fit", stock(2, &[], &[]), b"4100\n430003\n430103\n4F0002\n", &[&[]]),
        known("fit 0-2 of three", stock(3, &[(0, 2)], &[]), b"4101\n430002\n430103\n430202\n4F0003\n", &[&[(0, 2)]]),
        known("fit 1-2 of three, lit", stock(3, &[(1, 2)], &[(1, 2)]), b"4101\n430003\n430102\n430202\n4F0003\n", &[&[(1, 2)]]),
        known(
            "S3 with 0-2 lit, and one camera more",
            stock(4, &triangle, &[(0, 2)]),
            b"4101\n430000\n430100\n430200\n430303\n4F0004\n",
            &[&[(0, 2)]],
        ),
        known(
            "S4 without its last fit",
            stock(4, &[(0, 1), (0, 2)], &[]),
            b"4101\n430001\n430100\n430200\n430303\n4F0004\n",
            &[&[(0, 1)], &[(0, 2)]],
        ),
        known(
            "S5 around two cameras more",
            stock(6, &[(1, 2), (2, 4), (4, 5)], &[(2, 4)]),
            b"4102\n430003\n430102\n430202\n430303\n430402\n430502\n4F0006\n",
            &[&[(1, 2), (4, 5)]],
        ),
        known(
            "S6 around two cameras more",
            stock(7, &ring, &[]),
            b"4102\n430000\n430100\n430203\n430300\n430400\n430503\n430600\n4F0007\n",
            &of_ring,
        ),
    ]
}

/// Camera 1 fits 2 and 3, of which 3 is lit with it; the first camera, one in the middle and the last have no fit.
fn four_marks() -> Vec<KnownStock> {
    vec![
        known(
            "all four marks, one pair gained",
            stock(8, &[(1, 2), (1, 3), (5, 6)], &[(1, 3)]),
            b"4102\n430003\n430101\n430200\n430300\n430403\n430502\n430602\n430703\n4F0008\n",
            &[&[(1, 3), (5, 6)]],
        ),
        // a chain 4, 6, 7, 8 with its middle lit
        known(
            "all four marks, a lit pair swapped for two",
            stock(10, &[(1, 2), (1, 3), (4, 6), (6, 7), (7, 8)], &[(1, 3), (6, 7)]),
            b"4103\n430003\n430101\n430200\n430300\n430402\n430503\n430602\n430702\n430802\n430903\n4F000A\n",
            &[&[(1, 3), (4, 6), (7, 8)]],
        ),
    ]
}

/// 127 cameras with one fit at most.
fn largest_stocks() -> Vec<KnownStock> {
    let marked_03 = |cameras: std::ops::Range<usize>| -> String { cameras.map(|camera| format!("43{camera:02X}03\n")).collect() };
    let none = format!("4100\n{}4F007F\n", marked_03(0..127));
    let first = format!("4101\n430002\n430102\n{}4F007F\n", marked_03(2..127));
    let middle = format!("4101\n{}433F02\n434002\n{}4F007F\n", marked_03(0..63), marked_03(65..127));
    let last = format!("4101\n{}437D02\n437E02\n4F007F\n", marked_03(0..125));
    let ends = format!("4101\n430002\n{}437E02\n4F007F\n", marked_03(1..126));
    vec![
        known("127 cameras, and no fit", stock(127, &[], &[]), none.as_bytes(), &[&[]]),
        known("fit 0-1 of 127", stock(127, &[(0, 1)], &[]), first.as_bytes(), &[&[(0, 1)]]),
        known("fit 63-64 of 127, lit", stock(127, &[(63, 64)], &[(63, 64)]), middle.as_bytes(), &[&[(63, 64)]]),
        known("fit 125-126 of 127", stock(127, &[(125, 126)], &[]), last.as_bytes(), &[&[(125, 126)]]),
        known("fit 0-126 of 127", stock(127, &[(0, 126)], &[]), ends.as_bytes(), &[&[(0, 126)]]),
    ]
}

// ---- budgets

/// A stock, and for some numbers of searches the header of the answer.
pub struct KnownBudget {
    pub name: &'static str,
    pub stock: Stock,
    pub headers: &'static [(u32, &'static str)],
}

pub const S5_BUDGETS: [(u32, &[u8]); 4] = [
    (0, b"61010001\n520102\n6F0001\n"),
    (1, b"61020100\n520001\n520203\n6F0002\n"),
    (2, b"61020200\n520001\n520203\n6F0002\n"),
    (64, b"61020200\n520001\n520203\n6F0002\n"),
];

pub fn budgets() -> Vec<KnownBudget> {
    let unlit = |stock: Stock| Stock { lit: Vec::new(), ..stock };
    let known = [stocks(), isolated_examples(), few_cameras(), four_marks()];
    let more = [
        ("S7 with 0-2 and 3-5 lit", stock(6, &S7, &[(0, 2), (3, 5)])),
        ("S7 with every camera lit", stock(6, &S7, &[(0, 1), (2, 3), (4, 5)])),
        ("126 cameras in a row, none lit", unlit(row(126, 126).0)),
        ("127 cameras in a row, none lit", unlit(row(127, 127).0)),
        ("126 cameras in a row, all lit but the first and the last", row(126, 126).0),
    ];
    known.into_iter().flatten().map(|known| (known.name, known.stock)).chain(more).map(with_headers).collect()
}

/// 127 cameras of which most are left over.
pub fn large_budgets() -> Vec<KnownBudget> {
    let star: Vec<Pair> = (1..127).map(|camera| (0, camera)).collect();
    let more = [("127 cameras, one of which fits the others", stock(127, &star, &[]))];
    largest_stocks().into_iter().map(|known| (known.name, known.stock)).chain(more).map(with_headers).collect()
}

fn with_headers((name, stock): (&'static str, Stock)) -> KnownBudget {
    KnownBudget { name, stock, headers: headers(name) }
}

/// For each number of searches: 61, pairs, searches, and lanes at most still missing.
fn headers(name: &str) -> &'static [(u32, &'static str)] {
    match name {
        "S1" => &[(0, "61000000"), (1, "61000100"), (2, "61000100"), (64, "61000100")],
        "S2" => &[(0, "61000001"), (1, "61010100"), (2, "61010200"), (3, "61010200"), (64, "61010200")],
        "S3" => &[(0, "61000001"), (1, "61010100"), (2, "61010200"), (64, "61010200")],
        "S4" => &[(0, "61000002"), (1, "61010101"), (2, "61010200"), (3, "61010200"), (64, "61010200")],
        "S5" => &[(0, "61010001"), (1, "61020100"), (2, "61020200"), (3, "61020200"), (64, "61020200")],
        "S6" => &[(0, "61000002"), (1, "61010101"), (2, "61020200"), (3, "61020300"), (4, "61020300"), (64, "61020300")],
        "S7" => &[(0, "61000003"), (1, "61010102"), (2, "61020201"), (3, "61030300"), (4, "61030400"), (64, "61030400")],
        "isolated_alone" => &[(0, "61000000"), (1, "61000100"), (64, "61000100")],
        "isolated_third" => &[(0, "61000001"), (1, "61010100"), (2, "61010200"), (64, "61010200")],
        "four_marks" => &[(0, "61010003"), (1, "61020102"), (2, "61020200"), (64, "61020200")],
        "two cameras, and no fit" => &[(0, "61000001"), (1, "61000100"), (2, "61000100"), (64, "61000100")],
        "fit 0-2 of three" => &[(0, "61000001"), (1, "61010100"), (2, "61010200")],
        "fit 1-2 of three, lit" => &[(0, "61010000"), (1, "61010100"), (2, "61010100"), (64, "61010100")],
        "S3 with 0-2 lit, and one camera more" => &[(0, "61010001"), (1, "61010100"), (2, "61010100"), (64, "61010100")],
        "S4 without its last fit" => &[(0, "61000002"), (1, "61010101"), (2, "61010200"), (64, "61010200")],
        "S5 around two cameras more" => &[(0, "61010002"), (1, "61020101"), (2, "61020200"), (64, "61020200")],
        "S6 around two cameras more" => &[(0, "61000003"), (1, "61010102"), (2, "61020201"), (3, "61020300"), (4, "61020300")],
        "all four marks, one pair gained" => &[(0, "61010003"), (1, "61020102"), (2, "61020200"), (64, "61020200")],
        "all four marks, a lit pair swapped for two" => &[(0, "61020003"), (1, "61030102"), (2, "61030200"), (3, "61030200")],
        "127 cameras, and no fit" => &[(0, "6100003F"), (1, "61000100"), (64, "61000100")],
        "fit 0-1 of 127" | "fit 125-126 of 127" | "fit 0-126 of 127" => &[(0, "6100003F"), (1, "6101013E"), (2, "61010200")],
        "fit 63-64 of 127, lit" => &[(0, "6101003E"), (1, "61010100"), (64, "61010100")],
        "S7 with 0-2 and 3-5 lit" => &[(0, "61020001"), (1, "61030100"), (2, "61030200"), (64, "61030200")],
        "S7 with every camera lit" => &[(0, "61030000"), (1, "61030100"), (2, "61030100"), (64, "61030100")],
        "126 cameras in a row, none lit" => &IN_A_ROW,
        "127 cameras in a row, none lit" => &IN_A_ROW,
        "126 cameras in a row, all lit but the first and the last" => {
            &[(0, "613E0001"), (1, "613F0100"), (2, "613F0200"), (63, "613F0200"), (64, "613F0200")]
        }
        "127 cameras, one of which fits the others" => &[(0, "6100003F"), (1, "6101013E"), (2, "61010200"), (64, "61010200")],
        _ => panic!("no budget is known for {name}"),
    }
}

/// 63 pairs to be gained; of 127 cameras one is always left over.
const IN_A_ROW: [(u32, &str); 9] = [
    (0, "6100003F"),
    (1, "6101013E"),
    (9, "61090936"),
    (10, "610A0A35"),
    (16, "6110102F"),
    (31, "611F1F20"),
    (62, "613E3E01"),
    (63, "613F3F00"),
    (64, "613F4000"),
];

pub fn graph_files() -> Vec<Vec<u8>> {
    graphs().iter().map(|known| known.graph.file()).collect()
}

pub fn stock_files() -> Vec<Vec<u8>> {
    stocks().iter().map(|known| known.stock.file()).collect()
}
