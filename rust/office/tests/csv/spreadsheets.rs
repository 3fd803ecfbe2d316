//! What spreadsheets leave behind: empty edges, separators, line ends, line breaks in cells, encodings.
use super::{assert_faults, read, TYPED};
use planner::table::Table;

fn assert_is_s(text: &str) {
    let typed = read(text).unwrap_or_else(|faults| panic!("{text}: {faults:#?}"));
    assert_eq!(typed.table, Table::s(), "{text}");
    assert_eq!(typed.names.yards, ["North", "Middle", "South"], "{text}");
    assert_eq!(typed.names.farms, ["Hill Farm", "Mill Farm", "Lake Farm"], "{text}");
}

/// The table with some cells put before each line.
fn moved_right(cells: &str) -> String {
    TYPED.lines().map(|line| format!("{cells}{line}\n")).collect()
}

#[test]
fn empty_edges_are_passed_over() {
    for text in [
        TYPED.replace('\n', ",,\n"),
        TYPED.replacen('\n', ", , \n", 2),
        TYPED.replace('\n', ", \n").replace("Mill Farm", "\"Mill Farm\""),
        TYPED.replace('\n', ",\n").replace(',', "\t").replace("South\t", "South\t \t\"\""),
        format!("{TYPED},,,\n ,\n\n"),
        format!("\n,,,\n\"\",\n{TYPED}"),
        moved_right(",,"),
        moved_right(" ,\"\","),
        format!(";;;\n{}", moved_right(",").replace(',', ";").replace('\n', ";\n")),
        format!("\t\n{}\t\n", moved_right(",").replace(',', "\t")),
    ] {
        assert_is_s(&text);
    }
}

#[test]
fn lines_and_columns_count_from_the_edges_of_the_file() {
    let text = format!("\n,,\n{}", moved_right(",").replace("Mill Farm,5", "Mill Farm,x"));
    assert_faults(&text, &[(6, 3, "under yard North: 'x'")]);
    let names = read(&format!("\n,,\n{}", moved_right(","))).unwrap().names;
    assert_eq!(names.cells.haul(2, 1).unwrap().to_string(), "t.csv: line 6, column 5");
    let past = "\n\n,cents,A\n,fee,1\n,F,1,2\n";
    assert_faults(past, &[(5, 4, "line 3 names no yard above this cell")]);
}

#[test]
fn an_empty_row_or_column_between_others_is_a_fault_told_once() {
    let head = "cents,A,B\nfee,1,2\n";
    for (text, line) in [
        (format!("{head}\nF,1,2\n"), 3),
        (format!("{head}F,1,2\n \r\nG,1,2\n"), 4),
        (format!("{head}F,1,2\n,,\n,\n\nG,1,2\n"), 4),
        ("cents,A\n\nfee,1\nF,1\n".into(), 2),
    ] {
        assert_faults(&text, &[(line, 1, "the line is empty")]);
    }
    assert_faults("cents,A,,B\nfee,1,,2\nF,1,,2\n", &[(1, 3, "the column is empty")]);
    let far = ",".repeat(40);
    let faults = [(1, 3, "the column is empty"), (1, 43, "the name of the yard is missing")];
    assert_faults(&format!("cents,A,{far}\nfee,1,{far}2\nF,1,{far}2\n"), &faults);
    let title = "Silo 2026\n\ncents,A\nfee,1\nF,1\n";
    assert_faults(title, &[(1, 1, "'Silo 2026' stands here; asked here: the word cents")]);
}

#[test]
fn a_first_line_that_gives_the_separator_is_taken_and_not_counted() {
    for (line, separator) in
        [("sep=;", ";"), ("SEP=,", ","), ("\"sep=;\"", ";"), ("sep=\t", "\t"), ("\u{FEFF}sep=;", ";")]
    {
        for end in ["\n", "\r\n", "\r"] {
            assert_is_s(&format!("{line}\n{TYPED}").replace(',', separator).replace('\n', end));
        }
    }
    // The first comma is no separator then.
    assert_faults("sep=;\ncents,A;B\n", &[(1, 1, "'cents,A' stands here")]);
    assert_faults("sep=;\ncents;A\nfee;x\nF;1\n", &[(2, 2, "'x' is no whole number")]);
    assert_faults("sep=|\ncents|A\n", &[(1, 1, "asked after sep=: a comma, a semicolon or a tab")]);
    assert_faults("sep=;", &[(1, 1, "the table is empty")]);
}

#[test]
fn every_separator_and_line_end_is_taken() {
    for separator in [",", ";", "\t"] {
        for end in ["\n", "\r\n", "\r"] {
            assert_is_s(&TYPED.replace(',', separator).replace('\n', end));
        }
    }
    assert_faults("cents,A\rfee,1\rF,x\r", &[(3, 2, "'x' is no whole number")]);
}

#[test]
fn a_line_break_in_a_cell_becomes_one_blank_and_begins_no_line() {
    for end in ["\n", "\r\n", "\r", "\n\n", " \r\n\t"] {
        assert_is_s(&TYPED.replace("Mill Farm", &format!("\"Mill{end}Farm\"")).replace("North", "\"\nNorth\r\n\""));
        let text = TYPED.replace("Hill Farm", &format!("\"Hill{end}Farm\"")).replace("9,5,1", "9,x,1");
        assert_faults(&text, &[(5, 3, "'x' is no whole number")]);
    }
    assert_faults("cents,A\nfee,\"1\n2\"\nF,1\n", &[(2, 2, "'1 2' is no whole number of cents")]);
}

#[test]
fn files_of_other_types_are_refused_with_the_way_to_save() {
    let how = "; save the table again with the type \"CSV UTF-8\", which stands in the list of the save dialogue";
    let windows = format!("the text is not UTF-8 but, it seems, Windows-1252, as the type \"CSV\" has it{how}");
    assert_faults(b"cents,A,M\xFChle\nfee,1,2\nF,x,2\n", &[(1, 3, &windows)]);
    assert_faults(b"cents;A;B\r\nfee;1;2\r\n\"K\n\xFChn\";x;2\r\n", &[(3, 1, &windows)]);
    assert_faults(b"\xFC", &[(1, 1, &windows)]);
    let utf_16 = format!("the text is UTF-16, as the type \"Unicode text\" has it{how}");
    let units: Vec<u16> = TYPED.encode_utf16().collect();
    let little: Vec<u8> = units.iter().flat_map(|unit| unit.to_le_bytes()).collect();
    let big: Vec<u8> = units.iter().flat_map(|unit| unit.to_be_bytes()).collect();
    for bytes in [[b"\xFF\xFE", &little[..]].concat(), [b"\xFE\xFF", &big[..]].concat(), little, big] {
        assert_faults(&bytes, &[(1, 1, &utf_16)]);
    }
    let workbook = format!("the file is a workbook, as a spreadsheet keeps it for itself{how}");
    for bytes in [&b"PK\x03\x04\x14\x00\x06\x00"[..], b"\xD0\xCF\x11\xE0\xA1\xB1\x1A\xE1"] {
        assert_faults(bytes, &[(1, 1, &workbook)]);
    }
    assert_faults(&Table::s().sheet(), &[(1, 1, "the file is a sheet; asked: the table that the sheet was made from")]);
}

#[test]
fn a_file_without_a_filled_cell_is_an_empty_table() {
    for text in ["", "\u{FEFF}", "\n", " \r\n", ";;;\n;;;\n", "\"\",\"\n\"\n", "\t\t"] {
        assert_faults(text, &[(1, 1, "the table is empty")]);
    }
}

#[test]
fn a_character_that_cannot_be_printed_is_a_fault_of_its_cell() {
    let words = "the cell has a character that cannot be printed; asked: type the cell anew";
    assert_faults("cents,A\nfee,1\nBar\u{1B}[31mleben,x\n", &[(3, 1, words), (3, 2, "'x' is no whole number")]);
    assert_faults("cents,A,B\nfee,1,2\nF,1,2\n\0", &[(4, 1, words)]);
    assert_faults("cents,A\u{7},B\nfee,1,x\nF,1,2\n", &[(1, 2, words)]);
}
