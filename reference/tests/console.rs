//! The console's language, line by line.

use reference::console::Console;

/// What a console writes for these lines.
fn replies(lines: &[&str]) -> String {
    let mut console = Console::default();
    let mut out = Vec::new();
    for line in lines {
        console.line(line.as_bytes(), &mut out).unwrap();
    }
    String::from_utf8(out).unwrap()
}

#[test]
fn show_tree_and_estates_of_p() {
    let lines =
        ["boot 10 4", "ask 0 8 1 4 2 0 0 0 3 2", "show", "tree", "estate 3", "estate 4", "estate 5", "estate 64"];
    let stated = "0 0 0 0 0 0
0 2 0 0 0 0
control 10 4 0 5
row 0 5 0 4 0 28 1 4294967295 0
row 1 1 256 8 128 0 3 0 0
row 2 1 512 9 0 0 4294967295 4 0
row 3 5 256 2 0 0 4 1 1
row 4 5 320 2 0 0 2 3 1
end
row 0 CNode address 0 radix 4 guard 0 size 28
row 1 Untyped address 256 bytes 256 watermark 128
  row 3 CNode address 256 radix 2 guard 0 size 0
  row 4 CNode address 320 radix 2 guard 0 size 0
row 2 Untyped address 512 bytes 512 watermark 0
end
estate 3 16 17 18 19
estate 4 20 21 22 23
estate 5
bad
";
    assert_eq!(replies(&lines), stated);
}

#[test]
fn every_kind_in_a_tree() {
    let lines = [
        "boot 13 4",
        "ask 0 8 5 5 0 0 0 0 6 1",
        "ask 0 8 4 1 0 0 0 0 7 1",
        "ask 0 8 1 2 0 0 0 0 8 1",
        "ask 0 8 1 3 0 0 0 0 9 1",
        "ask 0 2 0 10 32 0 8 32 5 77",
        "ask 0 1 0 11 32 0 9 32 0",
        "ask 0 1 0 12 32 0 6 32 2",
        "tree",
    ];
    let stated = "0 0 0 0 0 0
0 1 0 0 0 0
0 1 0 0 0 0
0 1 0 0 0 0
0 1 0 0 0 0
0 1 0 0 0 0
0 1 0 0 0 0
0 1 0 0 0 0
row 0 CNode address 0 radix 4 guard 0 size 28
row 1 Untyped address 256 bytes 256 watermark 32
  row 9 Notification address 272 badge 0 rights write+read
    row 11 Notification address 272 badge 0 rights none
  row 8 Endpoint address 256 badge 0 rights write+read+grant
    row 10 Endpoint address 256 badge 77 rights write+grant
row 2 Untyped address 512 bytes 512 watermark 0
row 3 Untyped address 1024 bytes 1024 watermark 0
row 4 Untyped address 2048 bytes 2048 watermark 1024
  row 7 TCB address 2048
row 5 Untyped address 4096 bytes 4096 watermark 4096
  row 6 Frame address 4096 rights write+read
    row 12 Frame address 4096 rights read
end
";
    assert_eq!(replies(&lines), stated);
}

#[test]
fn lines_that_are_blank_or_bad() {
    for line in ["", " ", "\t \t", "\r", "#", "# boot 10 4", "#\r"] {
        assert_eq!(replies(&[line]), "", "{:?}", line);
    }
    for line in [
        " # x",
        "x",
        "boot",
        "boot 10",
        "boot 10 4 4",
        "BOOT 10 4",
        "boot 10 +4",
        "boot 10 4294967296",
        "size 32769",
        "size",
        "control 1 2 3",
        "control 1 2 3 4 5",
        "row 0 0 0 0 0 0 0 0",
        "ask",
        "ask -1",
        "ask 0 1 2 x",
        "ask 0 1 2 3 4 5 6 7 8 9 10 11 12 13 14 15 16 17",
        "show 0",
        "tree 0",
        "estate",
        "estate 0 0",
        "estate 0",
        "tree",
        "row 0 0 0 0 0 0 0 0 0",
        "ask\u{a0}0",
        "boot 10 4\r\r",
    ] {
        assert_eq!(replies(&[line]), "bad\n", "{:?}", line);
    }
}

#[test]
fn lines_that_are_spaced_oddly() {
    assert_eq!(
        replies(&["  boot\t10   004 \r", "ask 0 5 0 000000000000000000000006 32"]),
        "0 0 0 0 0 0\n0 0 0 0 0 0\n"
    );
    assert_eq!(replies(&["show"]), "control 0 0 0 0\nend\n");
    assert_eq!(replies(&["ask 0", "ask 0 1 2 3 4 5 6 7 8 9 10 11 12 13 14 15 16"]), "65 0 0 0 0 0\n65 0 0 0 0 0\n");
}

#[test]
fn sizes_rows_and_control() {
    let lines =
        ["size 17", "row 1 1 2 3 4 5 6 7 8", "row 2 0 0 0 0 0 0 0 0", "control 1 2 3 4", "show", "size 8", "show"];
    let stated = "ok\nok\nbad\nok\ncontrol 1 2 3 4\nrow 1 1 2 3 4 5 6 7 8\nend\nok\ncontrol 0 0 0 0\nend\n";
    assert_eq!(replies(&lines), stated);
    assert_eq!(replies(&["size 32768", "row 4095 0 0 0 0 0 0 0 1", "row 536870912 0 0 0 0 0 0 0 0"]), "ok\nok\nbad\n");
}

#[test]
fn a_refused_boot() {
    // m in range: the table is cleared and of the new length, control stays. Otherwise all stays.
    let lines =
        ["boot 10 4", "boot 11 7", "show", "row 127 0 0 0 0 0 0 0 5", "boot 9 4", "boot 10 4", "boot 17 4", "ask 0"];
    let stated = "0 0 0 0 0 0
4 4 6 0 0 0
control 10 4 0 3
end
ok
4 10 16 0 0 0
0 0 0 0 0 0
4 10 16 0 0 0
7 0 0 0 0 0
";
    assert_eq!(replies(&lines), stated);
}
