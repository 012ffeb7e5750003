//! Tenants whose estates share no row, and the console lines of their runs.

use reference::console::Console;
use reference::separation::{lines, run};

#[test]
fn merges_end_as_in_turn() {
    let mut out = Vec::new();
    let passed = run(1, 300, &mut out).unwrap();
    assert!(passed, "{}", String::from_utf8_lossy(&out));
}

#[test]
fn replayed_orders_show_the_same() {
    let mut script = Vec::new();
    lines(2, 30, &mut script).unwrap();
    let mut console = Console::default();
    let mut shown = Vec::new();
    for line in script.split(|&byte| byte == b'\n') {
        let mut out = Vec::new();
        console.line(line, &mut out).unwrap();
        assert_ne!(out, b"bad\n");
        if line == b"show" {
            shown.push(out);
        }
    }
    assert_eq!(shown.len(), 30 * 4);
    for orders in shown.chunks(4) {
        assert!(orders.iter().all(|order| *order == orders[0]));
    }
}
