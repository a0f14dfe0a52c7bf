//! The worked cases of the desk sheet through the safe wrapper, and every refusal's number.

use oratjolet::{change, fill, plan, show, Answer, Change, Refusal, Sheet, Store};

const DESK: [u64; 43] = [
    4, 3, 2, 5, 4, 3, 3, 3, 0, 2, 1, 1, 1, 1, 2, 1, 0, 1, 3, 1, 1, 2, 7, 7, 2, 1, 20, 29, 0, 0, 1,
    0, 2, 2, 3, 0, 3, 2, 8, 8, 8, 8, 8,
];

fn done(taken: u64, added: u64) -> Result<Answer, Refusal> {
    Ok(Answer { taken, added })
}

/// Cases 3 to 5: the title, the two copies, the borrower and the loan.
fn opened(sheet: &Sheet) -> Store {
    let mut store = Store::empty(sheet);
    let rows: [(u64, &[u64], u64); 5] = [
        (2, &[500, 24, 3], 0),
        (1, &[31234000000001, 500, 7], 0),
        (1, &[31238294967297, 500, 7], 0),
        (3, &[21234000000001, 1, 6], 0),
        (0, &[9001, 21234000000001, 31238294967297, 20520], 1),
    ];
    for (table, row, added) in rows {
        assert_eq!(
            store.change(sheet, Change::Insert { table, row }),
            done(0, added)
        );
    }
    store
}

#[test]
fn the_plan_of_the_desk() {
    let plan = plan(&DESK).unwrap();
    assert_eq!((plan.root, plan.store), (0, 97));
    assert_eq!(
        plan.tables.iter().map(|t| t.kept).collect::<Vec<_>>(),
        [false, true, true, true]
    );
    assert_eq!(plan.tables[1].columns, [0, 1]);
    assert_eq!(plan.tables[0].dep, [1, 3]);
    assert_eq!(plan.tables[2].need, [1]);
}

#[test]
fn the_changes_of_cases_3_to_9() {
    let sheet = Sheet::new(&DESK).unwrap();
    let mut store = opened(&sheet);
    assert_eq!(
        store.show(&sheet, 1).unwrap(),
        [31234000000001, 500, 31238294967297, 500]
    );
    assert_eq!(
        store.list(&sheet).unwrap(),
        [9001, 31238294967297, 3, 21234000000001, 6]
    );
    let title = |old: &[u64], new: &[u64], store: &mut Store| {
        store.change(&sheet, Change::Update { table: 2, old, new })
    };
    assert_eq!(title(&[500, 24, 3], &[500, 24, 4], &mut store), done(1, 1));
    assert_eq!(store.list(&sheet).unwrap()[2], 4);
    assert_eq!(
        title(&[500, 24, 4], &[500, 31, 4], &mut store),
        Err(Refusal::TiedColumn)
    );
    let again = Change::Insert {
        table: 1,
        row: &[31238294967297, 500, 7],
    };
    assert_eq!(store.change(&sheet, again), Err(Refusal::Contradiction));
    let loan = Change::Delete {
        table: 0,
        row: &[9001, 21234000000001, 31238294967297, 20520],
    };
    assert_eq!(store.change(&sheet, loan), done(1, 0));
    assert!(store.list(&sheet).unwrap().is_empty());
    assert_eq!(store.change(&sheet, loan), Err(Refusal::Contradiction));
}

#[test]
fn a_fill_is_what_the_changes_made() {
    let sheet = Sheet::new(&DESK).unwrap();
    let base = [
        1,
        2,
        1,
        1,
        9001,
        21234000000001,
        31238294967297,
        20520,
        31234000000001,
        500,
        7,
        31238294967297,
        500,
        7,
        500,
        24,
        3,
        21234000000001,
        1,
        6,
    ];
    assert_eq!(Store::filled(&sheet, &base).unwrap(), opened(&sheet));
}

#[test]
fn every_refusal() {
    let sheet = Sheet::new(&DESK).unwrap();
    let store = opened(&sheet).words().to_vec();
    let damaged = |at: usize, word: u64| {
        let mut words = DESK;
        words[at] = word;
        words
    };
    let asked = |sheet: &[u64], store: &[u64], kind, table, old: &[u64], new: &[u64]| {
        let mut words = store.to_vec();
        let answer = change(sheet, &mut words, kind, table, old, new);
        assert!(
            answer.is_ok() || words == store,
            "a refused call has altered the store"
        );
        answer
    };
    let copy = [1u64, 500, 7];
    assert_eq!(
        asked(&[], &store, 1, 1, &[], &copy),
        Err(Refusal::SheetLength)
    );
    assert_eq!(
        asked(&damaged(4, 9), &store, 1, 1, &[], &copy),
        Err(Refusal::SheetWords)
    );
    assert_eq!(
        asked(&damaged(10, 0), &store, 1, 1, &[], &copy),
        Err(Refusal::SheetTree)
    );
    assert_eq!(
        asked(&DESK, &store[1..], 1, 1, &[], &copy),
        Err(Refusal::StoreLength)
    );
    assert_eq!(
        asked(&DESK, &store, u64::MAX, 1, &[], &copy),
        Err(Refusal::NotAskedSo)
    );
    assert_eq!(
        asked(&DESK, &store, 3, 2, &[500, 24, 3], &[500, 31, 3]),
        Err(Refusal::TiedColumn)
    );
    let mut unsound = store.clone();
    unsound[7] = 1;
    assert_eq!(
        asked(&DESK, &unsound, 1, 1, &[], &copy),
        Err(Refusal::StoreUnsound)
    );
    assert_eq!(
        asked(&DESK, &store, 1, 1, &[], &[31238294967297, 500, 7]),
        Err(Refusal::Contradiction)
    );
    let full = damaged(42, 1);
    let one = &store[..store.len() - 35];
    assert_eq!(
        asked(
            &full,
            one,
            1,
            0,
            &[],
            &[9002, 21234000000001, 31234000000001, 20521]
        ),
        Err(Refusal::NoRoom)
    );
    let mut filled = store.clone();
    assert_eq!(
        fill(&DESK, &[u64::MAX; 4], &mut filled),
        Err(Refusal::BaseTables)
    );
    assert_eq!(filled, store);
    assert_eq!(show(&DESK, &store, 5), Err(Refusal::NotAskedSo));
    assert_eq!(Refusal::BaseTables.number(), 10);
}
