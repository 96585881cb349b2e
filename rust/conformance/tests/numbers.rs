//! The refusal numbers, their words and their orders are those of `docs/REFUSALS.md` wherever they stand.
#![cfg(feature = "library")]

use conformance::c::printed;
use conformance::tables::{calls, in_backticks, numbers, order, table, Number};
use straightener::Refusal;

#[test]
fn in_rust() {
    let table = numbers();
    for row in &table {
        let refusal = Refusal::from_number(row.number, 3, 5).expect("a refusal");
        let (fields, place) = match row.placed {
            true => (" { row: 3, column: 5 }", "; row 3, column 5"),
            false => ("", ""),
        };
        assert_eq!(refusal.number(), row.number);
        assert_eq!(format!("{refusal:?}"), format!("{}{fields}", row.rust));
        assert_eq!(refusal.to_string(), format!("{}{place}", row.words));
        let of_a_block = Refusal::from_block_number(row.number, 2, 3, 5).expect("a refusal");
        match &row.in_a_block {
            None => assert_eq!(of_a_block, refusal),
            Some(name) => assert_named_with_depth(of_a_block, name, row),
        }
    }
    let with_a_depth = table.iter().filter(|row| row.in_a_block.is_some()).map(|row| row.number);
    assert_eq!(with_a_depth.collect::<Vec<_>>(), [6]);
    for number in (1..1_000).chain([u32::MAX]).filter(|n| table.iter().all(|row| row.number != *n)) {
        let refusal = Refusal::from_number(number, 3, 5).expect("a refusal");
        assert!(matches!(refusal, Refusal::Unknown { row: 3, column: 5, .. }), "{number}");
        assert_eq!(refusal.number(), number);
        assert!(refusal.to_string().contains(&format!("number {number},")));
    }
    assert_eq!((Refusal::from_number(0, 3, 5), Refusal::from_block_number(0, 2, 3, 5)), (None, None));
}

/// Holds the refusal of a block at depth 2, row 3 and column 5 to its name and to its number's words.
fn assert_named_with_depth(refusal: Refusal, name: &str, row: &Number) {
    assert_eq!(refusal.number(), row.number);
    assert_eq!(format!("{refusal:?}"), format!("{name} {{ depth: 2, row: 3, column: 5 }}"));
    assert_eq!(refusal.to_string(), format!("{}; depth 2, row 3, column 5", row.words));
}

#[test]
fn in_c() {
    let mut expected = vec!["a number that this header has no words for".to_string(); 100];
    expected[0] = "accepted".to_string();
    for row in numbers() {
        expected[row.number as usize] = row.words;
    }
    assert_eq!(printed("words.c", "cc", &["-std=c11"]).lines().collect::<Vec<_>>(), expected);
}

#[test]
fn in_readme() {
    let expected: Vec<_> = numbers().into_iter().map(|row| vec![row.number.to_string(), row.words]).collect();
    assert_eq!(table("README.md", "Number"), expected);
}

#[test]
fn each_is_judged_by_a_call() {
    let judged: Vec<u32> = calls().into_iter().flat_map(|call| call.order).collect();
    let known: Vec<u32> = numbers().iter().map(|row| row.number).collect();
    assert!(judged.iter().all(|number| known.contains(number)), "a call has a number without a row");
    assert!(known.iter().all(|number| judged.contains(number)), "a number has no call");
}

#[test]
fn orders_in_readme() {
    let (readme, calls) = (table("README.md", "Call"), calls());
    for call in &calls {
        for path in &call.proved {
            let row = readme.iter().find(|row| in_backticks(&row[0]).contains(path));
            let row = row.unwrap_or_else(|| panic!("README has no row of {path}"));
            assert_eq!(order(&row[2]), call.order, "README's order of {path}");
        }
    }
    let known: Vec<_> = calls.iter().flat_map(|call| &call.proved).collect();
    for path in readme.iter().flat_map(|row| in_backticks(&row[0])) {
        assert!(known.contains(&&path), "docs/REFUSALS.md has no {path}");
    }
}

#[test]
fn orders_in_decisions() {
    let rows = table("docs/DECISIONS.md", "Call").into_iter();
    let mut decided: Vec<_> = rows.map(|row| (row[0].clone(), order(&row[1]))).collect();
    let mut expected: Vec<_> = calls().into_iter().map(|call| (call.name, call.order)).collect();
    decided.sort();
    expected.sort();
    assert_eq!(decided, expected);
}
