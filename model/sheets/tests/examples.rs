//! The examples: the builder's sheets, and what the program prints for them.

use model::planner::replay;
use model::program::{printed, printed_with};
use model::sheet::{check, check_with};
use sheets::examples::{chosen_berth, examples};
use std::collections::BTreeSet;
use std::fs;
use std::path::Path;
use std::process::Command;

/// The names of the files with this ending.
fn names(folder: &Path, ending: &str) -> BTreeSet<String> {
    let files = fs::read_dir(folder).expect("the folder").map(|file| file.expect("a file").path());
    let ended = files.filter(|file| file.extension().is_some_and(|e| e == ending));
    ended.map(|file| file.file_stem().expect("a name").to_string_lossy().into_owned()).collect()
}

#[test]
fn every_sheet_gives_what_its_file_says() {
    for example in examples() {
        assert_eq!(printed(&example.sheet), example.printed, "{}", example.name);
    }
}

#[test]
fn every_file_has_its_sheet() {
    let folder = Path::new(env!("CARGO_TARGET_TMPDIR")).join("examples");
    let built = Command::new(env!("CARGO_BIN_EXE_build_examples")).arg(&folder).status();
    assert!(built.expect("the builder runs").success());
    let expected = Path::new(env!("CARGO_MANIFEST_DIR")).join("../../examples");
    assert_eq!(names(&folder, "sheet"), names(&expected, "expected"));
    for example in examples() {
        let sheet = fs::read(folder.join(&example.name).with_extension("sheet")).expect("a sheet");
        assert!(sheet == example.sheet, "{}", example.name);
    }
}

/// The answers that 000 prints in section 8.1: robot 1 grabs end 1 and lifts by the actions 0 and 2, robot 2 grabs end
/// 2 and lifts by 4 and 5.
#[test]
fn the_papers_answers_lift_the_table_too() {
    let table = examples().into_iter().find(|example| example.name == "table").expect("an example");
    let sheet = check(&table.sheet).expect("the sheet is accepted");
    for answer in [[0, 2, 2, 4, 5, 2, 5, 2, 5], [0, 2, 2, 4, 5, 2, 5, 5, 2]] {
        assert!(replay(&sheet, &answer), "{answer:?}");
    }
}

#[test]
fn case_3_has_document_01s_bytes() {
    let sheet = examples().swap_remove(0).sheet;
    let notes = check(&sheet).expect("the sheet is accepted").notes;
    let records = [
        &[3, 1, 3, 0][..],
        &[2, 1, 0, 0, 0, 0, 2, 0, 0, 0, 0, 0, 6, 0, 0, 0, 1, 0, 0, 0, 0, 0, 0, 0],
        &[3, 0, 0, 0, 3, 0, 1, 2],
        &[0, 0, 0, 0, 1, 0, 2, 0, 1, 0, 1, 0],
        &[1, 0, 0, 0, 0, 0, 0, 0, 5, 0, 0, 0, 0, 0, 0, 0, 1, 0, 1, 0, 0, 0, 0, 0, 3, 0, 1, 0, 2, 0, 0, 0],
        &[2, 0, 4, 0, 2, 0, 2, 0, 4, 0, 2, 0, 0x50, 0, 0, 0, 0x42, 0x51],
    ];
    assert_eq!(sheet[notes.end..], records.concat());
}

/// B goes to section 1 (action 1 with 1 in placeholder 0), C to section 7, and E is berthed at 2: `ABEEEEDC`. Nine
/// actions, where one for each ship and section would make 37.
#[test]
fn a_berth_is_chosen_while_running() {
    assert_eq!(printed_with(2, &chosen_berth(2)), "refused 14 0\n");
    for bound in [3, 6] {
        assert_eq!(printed_with(2, &chosen_berth(bound)), "found 3 3\n65\n450\n6\n");
    }
    let sheet = check_with(2, &chosen_berth(3)).expect("the sheet is accepted");
    assert_eq!(sheet.actions.len(), 9);
    assert!(!replay(&sheet, &[65, 450, 5]) && replay(&sheet, &[450, 65, 6]));
}
