use reference::generate::line;

use crate::run::{Folder, R1};

/// Sorted by tag, in the file's order within a tag; columns by the header line.
#[test]
fn imports() {
    let folder = Folder::new("imports");
    let list =
        [line(3, 85, 3, 13), line(5, 8_100, 2, 8), line(5, 7_000, 2, 9), line(9, 8_000, 1, 7)]
            .concat();
    let plain =
        "tag,tare,material,weighing number\n9,8000,1,7\n5,8100,2,8\n5,7000,2,9\n3,85,3,13\n";
    let ordered = "Weighing Number,Material Code,Yard,Tag,Tare kg\n7,1,x,9,8000\n8,2,x,5,8100\n9,2,x,5,7000\n13,3,x,3,85\n";
    for (csv, what) in [
        (plain.to_string(), "plain"),
        (ordered.to_string(), "columns in another order, and one more"),
        (plain.replace(',', ";"), "semicolons"),
        (plain.replace(',', "\t"), "tabs"),
        (plain.replace('\n', "\r\n"), "CR LF"),
        (format!("\u{feff}{plain}"), "a byte order mark"),
        (plain.trim_end().to_string(), "no last newline"),
        (plain.replace("\n9,", "\n\n 9 ,"), "an empty line, blanks"),
        (plain.replace("8100", "\"8100\""), "quotes"),
        (plain.replace("85", "00085"), "leading zeros"),
        (ordered.replace(",x,", ",\"x, \"\"y\"\"\","), "separators and quotes in quotes"),
    ] {
        folder.write("csv", csv.as_bytes());
        assert_eq!(folder.tares("import csv list").done(), "4 lines\n", "{what}");
        assert!(folder.read("list") == list.as_bytes(), "{what}");
    }
    folder.tares(&format!("build list image {R1}")).done();
    let run = folder.tares_given("import - -", plain.as_bytes());
    assert_eq!((run.status, &*run.err), (0, "4 lines\n"));
    assert!(run.out == list.as_bytes());
}

/// What cannot be taken is told with its line and left out.
#[test]
fn lines_not_taken() {
    let folder = Folder::new("import_lines_not_taken");
    let csv = "tag,tare,material,weighing number\n\
        5,108300,1,1\n6,8300,1,2\n,8300,1,3\n7,83.5,1,4\n4294967296,1,1,5\n8,1,10000,6\n9,1,1,1000000\n10,1,1\n-1,1,1,1\n";
    folder.write("csv", csv.as_bytes());
    let run = folder.tares("import csv list");
    assert_eq!((run.status, &*run.out), (1, &b"1 line, 8 not taken\n"[..]));
    assert_eq!(
        run.err,
        "tares: line 2 not taken: tare 108300 is over 99999: 5,108300,1,1\n\
         tares: line 4 not taken: tag is blank: ,8300,1,3\n\
         tares: line 5 not taken: tare \"83.5\" is no whole number: 7,83.5,1,4\n\
         tares: line 6 not taken: tag 4294967296 is over 4294967295: 4294967296,1,1,5\n\
         tares: line 7 not taken: material code 10000 is over 9999: 8,1,10000,6\n\
         tares: line 8 not taken: weighing number 1000000 is over 999999: 9,1,1,1000000\n\
         tares: line 9 not taken: weighing number is missing: 10,1,1\n\
         tares: line 10 not taken: tag \"-1\" is no whole number: -1,1,1,1\n"
    );
    assert!(folder.read("list") == line(6, 8_300, 1, 2).as_bytes());
}

#[test]
fn not_imported() {
    let folder = Folder::new("not_imported");
    let header = "tag,tare,material,weighing number\n";
    let utf_16: Vec<u8> = header.encode_utf16().flat_map(u16::to_le_bytes).collect();
    let names = "it names the columns tag, tare, material, weighing number";
    let many = header.to_string() + &"5,1,1,1\n".repeat(40_001);
    for (csv, reason) in [
        (&b""[..], "no header line"),
        (b"5,8300,1,1\n", &format!("the header line has no column tag: {names}")),
        (
            b"tag,tare,weighing number\n5,1,1\n",
            &format!("the header line has no column material: {names}"),
        ),
        (
            b"tag,tare,material,weighing number,tare\n",
            "the header line has two columns for the tare",
        ),
        (&utf_16, "the file is UTF-16: save it as CSV in UTF-8"),
        (many.as_bytes(), "40001 lines, and a list has at most 40000"),
    ] {
        folder.write("csv", csv);
        assert_eq!(
            folder.tares("import csv list").refused(),
            format!("tares: not imported: {reason}\n")
        );
        assert_eq!(folder.names(), ["csv"]);
    }
    let text = folder.tares("import /dev/zero list").refused();
    assert_eq!(text, "tares: not imported: more than 67108864 bytes\n");
    folder.write("csv", header.as_bytes());
    let run = folder.tares("import csv list");
    let warning = "tares: warning: the list is empty, so every tag is absent\n";
    assert_eq!((run.status, &*run.out, &*run.err), (0, &b"0 lines\n"[..], warning));
}
