//! The worked cases 1 to 13 of document 01, the printed plans, and each refusal number.

use model::change::change_call;
use model::fill::fill_call;
use model::plan::plan_call;
use model::store::show_call;
use model::text::{printed, words};
use model::Outcome;

const DESK: &str = "4 3 2 5  4 3 3 3
0 2 1 1  1 1 2 1  0 1 3 1
1 2 7 7  2 1 20 29
0 0  1 0  2 2  3 0  3 2
8 8 8 8 8
";

const DESK_PLAN: &str = "root 0 store 97
0 kept 0 cols - dep 1,3 need -
1 kept 1 cols 0,1 dep 2 need -
2 kept 1 cols 0,2 dep - need 1
3 kept 1 cols 0,2 dep - need -
";

const BORROWER: u64 = 21_234_000_000_001;
const COPY_A: u64 = 31_234_000_000_001;
const COPY_B: u64 = 31_238_294_967_297;
const LIST: u64 = 4;

fn desk() -> Vec<u64> {
    words(DESK.as_bytes()).unwrap()
}

/// A sheet with its store, and the calls on it.
struct Desk {
    sheet: Vec<u64>,
    store: Vec<u64>,
}

impl Desk {
    fn zero(sheet: Vec<u64>) -> Desk {
        let store = vec![0; plan_call(&sheet).length];
        Desk { sheet, store }
    }

    /// After cases 3 to 5.
    fn with_one_loan(sheet: Vec<u64>) -> Desk {
        let mut desk = Desk::zero(sheet);
        assert_eq!(desk.insert(2, &[500, 24, 3]), (0, 0, 0));
        assert_eq!(desk.insert(1, &[COPY_A, 500, 7]), (0, 0, 0));
        assert_eq!(desk.insert(1, &[COPY_B, 500, 7]), (0, 0, 0));
        assert_eq!(desk.insert(3, &[BORROWER, 1, 6]), (0, 0, 0));
        assert_eq!(desk.insert(0, &[9001, BORROWER, COPY_B, 20520]), (0, 0, 1));
        desk
    }

    fn change(&mut self, kind: u64, table: u64, old: &[u64], new: &[u64]) -> (u64, u64, u64) {
        let outcome = change_call(&self.sheet, &self.store, kind, table, old, new);
        if outcome.number != 0 {
            assert_eq!(outcome.store, self.store, "a refusal writes nothing");
        }
        self.store = outcome.store;
        (outcome.number, outcome.taken, outcome.added)
    }

    fn insert(&mut self, table: u64, new: &[u64]) -> (u64, u64, u64) {
        self.change(1, table, &[], new)
    }

    fn delete(&mut self, table: u64, old: &[u64]) -> (u64, u64, u64) {
        self.change(2, table, old, &[])
    }

    fn update(&mut self, table: u64, old: &[u64], new: &[u64]) -> (u64, u64, u64) {
        self.change(3, table, old, new)
    }

    fn show(&self, part: u64) -> Vec<u64> {
        let (number, words) = show_call(&self.sheet, &self.store, part);
        assert_eq!(number, 0);
        words
    }
}

#[test]
fn case_1_the_desk_sheet() {
    assert_eq!(desk().len(), 43);
    assert_eq!(printed(DESK.as_bytes()), DESK_PLAN);
}

#[test]
fn case_2_borrower_key_unlisted() {
    let text = "4 3 2 4  4 3 3 3
        0 2 1 1  1 1 2 1  0 1 3 1
        1 2 7 7  2 1 20 29
        0 0  1 0  2 2  3 2
        8 8 8 8 8";
    let plan = "root 0 store 113
0 kept 1 cols 0,1,2 dep 1,3 need -
1 kept 1 cols 0,1 dep 2 need -
2 kept 1 cols 0,2 dep - need 1
3 kept 1 cols 0,2 dep - need 0
";
    assert_eq!(printed(text.as_bytes()), plan);
}

#[test]
fn case_3_first_title() {
    let mut desk = Desk::zero(desk());
    assert_eq!(desk.insert(2, &[500, 24, 3]), (0, 0, 0));
    assert_eq!(desk.show(2), [500, 3]);
    let mut store = vec![0; 97];
    store[2] = 1;
    // Copies stand before titles: 9 counts, then 8 rows of 2 columns.
    store[25..27].copy_from_slice(&[500, 3]);
    assert_eq!(desk.store, store);
}

#[test]
fn case_4_two_copies_apart_by_32_bits() {
    assert_eq!(COPY_B - COPY_A, 4_294_967_296);
    let desk = Desk::with_one_loan(desk());
    assert_eq!(desk.show(1), [COPY_A, 500, COPY_B, 500]);
}

#[test]
fn case_5_one_loan() {
    let desk = Desk::with_one_loan(desk());
    assert_eq!(desk.show(LIST), [9001, COPY_B, 3, BORROWER, 6]);
    assert_eq!(desk.show(0), []);
    assert_eq!(desk.show(3), [BORROWER, 6]);
}

#[test]
fn cases_6_to_9_go_on() {
    let mut desk = Desk::with_one_loan(desk());
    assert_eq!(desk.update(2, &[500, 24, 3], &[500, 24, 4]), (0, 1, 1));
    assert_eq!(desk.show(LIST), [9001, COPY_B, 4, BORROWER, 6]);
    assert_eq!(desk.show(2), [500, 4]);
    assert_eq!(desk.update(2, &[500, 24, 4], &[500, 31, 4]), (6, 0, 0));
    assert_eq!(desk.insert(1, &[COPY_B, 500, 7]), (8, 0, 0));
    let loan = [9001, BORROWER, COPY_B, 20520];
    assert_eq!(desk.delete(0, &loan), (0, 1, 0));
    assert_eq!(desk.show(LIST), []);
    assert_eq!(desk.delete(0, &loan), (8, 0, 0));
}

#[test]
fn case_10_titles_that_do_not_qualify() {
    let mut desk = Desk::zero(desk());
    let before = desk.store.clone();
    assert_eq!(desk.insert(2, &[501, 31, 2]), (0, 0, 0));
    assert_eq!(desk.insert(2, &[501, 30, 2]), (0, 0, 0));
    assert_eq!(desk.insert(2, &[501, 19, 2]), (0, 0, 0));
    assert_eq!(desk.store, before);
    assert_eq!(desk.insert(2, &[501, 29, 2]), (0, 0, 0));
    assert_eq!(desk.insert(2, &[502, 20, 2]), (0, 0, 0));
    assert_eq!(desk.show(2), [501, 2, 502, 2]);
}

#[test]
fn case_11_list_room_1() {
    let mut sheet = desk();
    *sheet.last_mut().unwrap() = 1;
    let mut desk = Desk::with_one_loan(sheet);
    let second = [9002, BORROWER, COPY_A, 20521];
    assert_eq!(desk.insert(0, &second), (9, 0, 0));
    let first = [9001, BORROWER, COPY_B, 20520];
    assert_eq!(desk.delete(0, &first), (0, 1, 0));
    assert_eq!(desk.insert(0, &second), (0, 0, 1));
    assert_eq!(desk.show(LIST), [9002, COPY_A, 3, BORROWER, 6]);
}

#[test]
fn case_12_equal_list_rows() {
    let sheet = vec![1, 0, 0, 1, 2, 0, 1, 4, 4];
    let text = "root 0 store 13\n0 kept 0 cols - dep - need -\n";
    assert_eq!(plan_call(&sheet).text(), text);
    let mut one = Desk::zero(sheet);
    assert_eq!(one.insert(0, &[1, 5]), (0, 0, 1));
    assert_eq!(one.insert(0, &[2, 5]), (0, 0, 1));
    assert_eq!(one.show(1), [5, 5]);
    assert_eq!(one.delete(0, &[1, 5]), (0, 1, 0));
    assert_eq!(one.show(1), [5]);
}

#[test]
fn case_13_fill_from_empty_base_tables() {
    let outcome = fill_call(&desk(), &[7; 97], &[0; 4]);
    let zero = Outcome {
        number: 0,
        taken: 0,
        added: 0,
        store: vec![0; 97],
    };
    assert_eq!(outcome, zero);
}

/// The base tables after cases 3 to 5, with a title that does not qualify.
fn desk_run() -> Vec<u64> {
    let mut run = vec![1, 2, 2, 1];
    run.extend([9001, BORROWER, COPY_B, 20520]);
    run.extend([COPY_B, 500, 7, COPY_A, 500, 7]);
    run.extend([501, 31, 2, 500, 24, 3]);
    run.extend([BORROWER, 1, 6]);
    run
}

#[test]
fn fill_agrees_with_the_changes() {
    let outcome = fill_call(&desk(), &[u64::MAX; 97], &desk_run());
    assert_eq!((outcome.number, outcome.taken, outcome.added), (0, 0, 1));
    assert_eq!(outcome.store, Desk::with_one_loan(desk()).store);
}

#[test]
fn text_of_a_sheet() {
    let refused = "refused 1\n";
    assert_eq!(printed(b""), refused);
    assert_eq!(printed(b" \n \n"), refused);
    assert_eq!(printed(DESK.replace(' ', "\t").as_bytes()), refused);
    assert_eq!(printed(DESK.replace('\n', "\r\n").as_bytes()), refused);
    assert_eq!(printed(DESK.replacen('4', "+4", 1).as_bytes()), refused);
    assert_eq!(printed(format!("{DESK}\0").as_bytes()), refused);
    assert_eq!(printed(format!("{DESK}0").as_bytes()), refused);
    let numbers: Vec<&str> = DESK.split_whitespace().collect();
    let zeros = "0".repeat(30);
    let between = format!("  \n {zeros}");
    let spaced = format!("\n\n  {}  \n", numbers.join(&between));
    assert_eq!(printed(spaced.as_bytes()), DESK_PLAN);
    // The highest value of the range is a word, the next one isn't.
    let highest = DESK.replace("20 29", "20 18446744073709551615");
    assert_eq!(printed(highest.as_bytes()), DESK_PLAN);
    let too_large = DESK.replace("20 29", "20 18446744073709551616");
    assert_eq!(printed(too_large.as_bytes()), refused);
}

fn plan_number(sheet: &[u64]) -> u64 {
    let answer = plan_call(sheet);
    if answer.number != 0 {
        assert_eq!((answer.root, answer.length), (0, 0));
        assert!(answer.tables.is_empty());
        assert_eq!(answer.text(), format!("refused {}\n", answer.number));
    }
    answer.number
}

#[test]
fn refusal_1() {
    let sheet = desk();
    for length in 0..sheet.len() {
        assert_eq!(plan_number(&sheet[..length]), 1);
    }
    let mut longer = sheet.clone();
    longer.push(0);
    assert_eq!(plan_number(&longer), 1);
    for place in 0..4 {
        for add in [1, u64::MAX, 1 << 32, 1 << 62, 1 << 63] {
            let mut other = sheet.clone();
            other[place] = other[place].wrapping_add(add);
            assert_eq!(plan_number(&other), 1);
        }
    }
    assert_eq!(plan_number(&[0, u64::MAX, 0, 1, 0, 0, 1]), 1);
    assert_eq!(plan_number(&[u64::MAX; 145]), 1);
}

#[test]
fn refusal_2() {
    // Each place of the desk sheet, and a word that breaks its rules there.
    let broken = [
        (4, 0),
        (4, 9),
        (7, 2),
        (8, 4),
        (9, 0),
        (9, 4),
        (10, 4),
        (11, 2),
        (11, 1 << 32),
        (20, 4),
        (21, 3),
        (22, 8),
        (23, 6),
        (28, 4),
        (29, 4),
        (30, 0),
        (38, 4097),
        (42, 4097),
        (42, u64::MAX),
    ];
    for (place, word) in broken {
        let mut sheet = desk();
        sheet[place] = word;
        assert_eq!(plan_number(&sheet), 2, "place {place} word {word}");
    }
    let mut sheet = desk();
    sheet[38..43].copy_from_slice(&[0, 4096, 4096, 4096, 4096]);
    assert_eq!(plan_number(&sheet), 0);
    assert_eq!(plan_call(&sheet).length, 9 + 3 * 2 * 4096 + 5 * 4096);
}

#[test]
fn refusal_3() {
    let mut self_edge = desk();
    self_edge[14] = 1;
    assert_eq!(plan_number(&self_edge), 3);
    let mut two_into_one = desk();
    two_into_one[18] = 2;
    assert_eq!(plan_number(&two_into_one), 3);
    // 1 to 2 and 2 to 1: each has one edge into it, but the root doesn't reach them.
    let mut circle = desk();
    circle[8..12].copy_from_slice(&[2, 1, 1, 1]);
    assert_eq!(plan_number(&circle), 3);
    // A broken word goes before a broken tree, a broken length before both.
    circle[42] = 4097;
    assert_eq!(plan_number(&circle), 2);
    circle.push(0);
    assert_eq!(plan_number(&circle), 1);
}

#[test]
fn need_may_contain_the_table_itself() {
    // 0 to 1 with no key listed.
    let sheet = [2, 1, 0, 1, 2, 2, 0, 1, 1, 1, 1, 1, 3, 3, 3];
    let text = "root 0 store 24
0 kept 1 cols 0,1 dep 1 need 1
1 kept 1 cols 0,1 dep - need 0,1
";
    assert_eq!(plan_call(&sheet).text(), text);
}

#[test]
fn two_edges_leave_one_child_column() {
    let sheet = [
        3, 2, 0, 2, 2, 1, 2, 0, 1, 1, 1, 0, 1, 2, 0, 0, 0, 2, 1, 5, 5, 5, 5,
    ];
    let text = "root 0 store 44
0 kept 1 cols 0,1 dep 1 need -
1 kept 1 cols 0 dep - need 0
2 kept 1 cols 0,1 dep - need 0
";
    assert_eq!(plan_call(&sheet).text(), text);
    let mut three = Desk::zero(sheet.to_vec());
    // Table 2 isn't promised: its row may come last.
    assert_eq!(three.insert(1, &[6]), (0, 0, 0));
    assert_eq!(three.insert(0, &[1, 6]), (0, 0, 0));
    assert_eq!(three.insert(2, &[6, 9]), (0, 0, 1));
    assert_eq!(three.show(3), [1, 9]);
    assert_eq!(three.update(2, &[6, 9], &[6, 9]), (0, 1, 1));
    assert_eq!(three.delete(2, &[6, 9]), (0, 1, 0));
}

#[test]
fn refusals_4_and_5() {
    let sheet = desk();
    let row = [500, 24, 3];
    let number = |store: &[u64], kind, table, old: &[u64], new: &[u64]| {
        let outcome = change_call(&sheet, store, kind, table, old, new);
        assert_eq!((outcome.taken, outcome.added), (0, 0));
        outcome.number
    };
    assert_eq!(number(&[0; 96], 9, 9, &[], &[]), 4);
    assert_eq!(number(&[0; 98], 1, 2, &[], &row), 4);
    let store = [0; 97];
    for kind in [0, 4, u64::MAX, 1 + (1 << 32)] {
        assert_eq!(number(&store, kind, 2, &[], &row), 5);
    }
    for table in [4, u64::MAX, 2 + (1 << 32)] {
        assert_eq!(number(&store, 1, table, &[], &row), 5);
    }
    assert_eq!(number(&store, 1, 2, &[], &row[..2]), 5);
    assert_eq!(number(&store, 1, 2, &row, &row), 5);
    assert_eq!(number(&store, 1, 2, &row, &[]), 5);
    assert_eq!(number(&store, 2, 2, &row, &row), 5);
    assert_eq!(number(&store, 2, 2, &[], &row), 5);
    assert_eq!(number(&store, 2, 0, &row, &[]), 5);
    assert_eq!(number(&store, 3, 2, &row, &[]), 5);
    // Two keys are 5 even where a tied column alters too.
    let other = [500 + (1 << 32), 31, 3];
    assert_eq!(number(&store, 3, 2, &row, &other), 5);
    assert_eq!(show_call(&sheet, &store, 5), (5, vec![]));
    assert_eq!(show_call(&sheet, &store[1..], 5), (4, vec![]));
}

#[test]
fn refusals_6_and_7() {
    let sheet = desk();
    let mut store = vec![0; 97];
    store[0] = 1;
    // The loan has no side table, so its count must be 0; but 5 and 6 go before 7.
    let row = [500, 24, 3];
    let number = |old: &[u64], new: &[u64]| change_call(&sheet, &store, 3, 2, old, new).number;
    assert_eq!(number(&row, &[501, 24, 3]), 5);
    assert_eq!(number(&row, &[500, 25, 3]), 6);
    assert_eq!(number(&row, &[500, 24, 4]), 7);
    assert_eq!(show_call(&sheet, &store, 0), (7, vec![]));
    let sound = Desk::with_one_loan(desk());
    // Too many rows, a count past n, unused room, the same key twice, falling keys.
    let broken = [(1, 9), (7, 1), (96, 1), (11, COPY_A), (9, COPY_B + 1)];
    for (place, word) in broken {
        let mut store = sound.store.clone();
        store[place] = word;
        let (number, words) = show_call(&sheet, &store, 3);
        assert_eq!((number, words), (7, vec![]), "place {place} word {word}");
    }
}

#[test]
fn refusal_8() {
    let mut desk = Desk::with_one_loan(desk());
    // The same key in a row that isn't qualified.
    assert_eq!(desk.insert(2, &[500, 31, 3]), (8, 0, 0));
    assert_eq!(desk.delete(2, &[500, 31, 3]), (8, 0, 0));
    assert_eq!(desk.update(2, &[500, 31, 3], &[500, 31, 4]), (8, 0, 0));
    // Qualified, but the side table shows another shelf, or no such key.
    assert_eq!(desk.delete(2, &[500, 24, 4]), (8, 0, 0));
    assert_eq!(desk.update(2, &[501, 24, 3], &[501, 24, 4]), (8, 0, 0));
    // Hidden columns can't be told apart.
    assert_eq!(
        desk.update(3, &[BORROWER, 2, 6], &[BORROWER, 3, 7]),
        (0, 1, 1)
    );
    // The list shows another desk than the loan's way.
    let mut store = desk.store.clone();
    store[61] = 8;
    desk.store = store;
    assert_eq!(desk.show(LIST), [9001, COPY_B, 3, BORROWER, 8]);
    assert_eq!(desk.delete(0, &[9001, BORROWER, COPY_B, 1]), (8, 0, 0));
    assert_eq!(
        desk.update(3, &[BORROWER, 1, 7], &[BORROWER, 1, 8]),
        (8, 0, 0)
    );
}

#[test]
fn refusals_9_and_10() {
    let mut sheet = desk();
    sheet[40] = 0;
    let mut desk = Desk::zero(sheet.clone());
    assert_eq!(desk.insert(2, &[500, 24, 3]), (9, 0, 0));
    assert_eq!(desk.insert(2, &[500, 30, 3]), (0, 0, 0));
    let number = |run: &[u64]| {
        let outcome = fill_call(&sheet, &desk.store, run);
        assert_eq!(outcome.store, desk.store);
        outcome.number
    };
    assert_eq!(number(&desk_run()), 9);
    // 10 goes before 9.
    let mut twice = desk_run();
    twice[11] = COPY_B;
    assert_eq!(number(&twice), 10);
    let mut no_parent = desk_run();
    no_parent[5] = 1;
    assert_eq!(number(&no_parent), 10);
    assert_eq!(number(&desk_run()[..20]), 10);
    assert_eq!(number(&[]), 10);
    assert_eq!(number(&[1 << 62, 0, 0, 0]), 10);
    let outcome = fill_call(&sheet, &desk.store[1..], &twice);
    assert_eq!(outcome.number, 4);
}

#[test]
fn counts_of_base_tables() {
    // One table of width 1; only the key 0 meets the condition.
    let sheet = [1, 0, 1, 1, 1, 0, 0, 0, 0, 0, 0, 0, 1];
    let run = |count: u64| -> Vec<u64> {
        let mut words = vec![count];
        words.extend(0..count);
        words
    };
    let full = fill_call(&sheet, &[0; 10], &run(65_535));
    assert_eq!((full.number, full.added), (0, 1));
    assert_eq!(fill_call(&sheet, &[0; 10], &run(65_536)).number, 10);
}
