//! Compares the tool's answers with stored sessions, which show what a person types and sees.

mod maps;
mod session;
mod tool;

#[test]
fn cases_of_document_01() {
    assert_eq!(session::run("cases"), 33);
}

#[test]
fn every_command() {
    assert_eq!(session::run("commands"), 37);
}

#[test]
fn what_was_wrong_is_repaired() {
    assert_eq!(session::run("repairs"), 68);
}

#[test]
fn names_in_quotation_marks_and_one_level() {
    assert_eq!(session::run("names"), 34);
}

#[test]
fn features_that_belong_to_types() {
    assert_eq!(session::run("lists"), 24);
}

#[test]
fn more_than_two() {
    assert_eq!(session::run("many"), 18);
}

#[test]
fn tables_as_text_source_and_pictures() {
    assert_eq!(session::run("table"), 28);
}

#[test]
fn comparisons() {
    assert_eq!(session::run("compare"), 14);
}

#[test]
fn programs_that_mean_the_same() {
    assert_eq!(session::run("same"), 14);
}

#[test]
fn reports() {
    assert_eq!(session::run("report"), 11);
}

#[test]
fn answers_as_json() {
    assert_eq!(session::run("json"), 20);
}

#[test]
fn forty_three_maps() {
    let folder = tool::folder("maps");
    maps::store(&folder);
    assert_eq!(session::run_in("maps", &folder), 6);
}

#[test]
fn the_day_of_an_integrator() {
    assert_eq!(session::run("day"), 26);
}

#[test]
fn a_patients_file() {
    assert_eq!(session::run("pack"), 96);
}

#[test]
fn ranges_in_every_command() {
    assert_eq!(session::run("ranges"), 25);
}

#[test]
fn reasons_in_words_and_pictures() {
    assert_eq!(session::run("reasons"), 17);
}

#[test]
fn differences_by_a_reading_order() {
    assert_eq!(session::run("reading"), 20);
}

#[test]
fn listings() {
    assert_eq!(session::run("list"), 11);
}

#[test]
fn planning_tables_to_records() {
    assert_eq!(session::run("import"), 29);
}

#[test]
fn records_to_planning_tables() {
    assert_eq!(session::run("export"), 25);
}

#[test]
fn malformed_planning_tables() {
    assert_eq!(session::run("csv"), 50);
}

#[test]
fn pictures() {
    assert_eq!(session::run("draw"), 9);
}

#[test]
fn help() {
    assert_eq!(session::run("help"), 24);
}

#[test]
fn wrong_use() {
    assert_eq!(session::run("usage"), 27);
}

#[test]
fn malformed_texts() {
    assert_eq!(session::run("malformed"), 49);
}

#[test]
fn malformed_and_refused_tables() {
    assert_eq!(session::run("tables"), 34);
}

#[test]
fn refusals() {
    assert_eq!(session::run("refusals"), 30);
}
