//! The twelve cases of the paper, counted.

#[test]
fn the_twelve_cases() {
    let results = reference::cases::run();
    let failed: Vec<_> = results.iter().filter(|(_, result)| result.is_err()).collect();
    println!("{} passed, {} failed", results.len() - failed.len(), failed.len());
    assert_eq!(results.len(), 13, "the boot state and twelve cases");
    assert!(failed.is_empty(), "{:?}", failed);
}
