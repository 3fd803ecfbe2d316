//! The command line: help, options and words that are wrong.
use super::program::{Folder, S};

const COMMANDS: [&str; 14] = [
    "make",
    "show",
    "plan",
    "price",
    "lists",
    "shut",
    "compare",
    "compare-sheets",
    "cards",
    "yards",
    "page",
    "make-tariff",
    "tariff",
    "help",
];

#[test]
fn help_is_a_result_with_every_command_option_and_status() {
    let folder = Folder::new("usage-help");
    let help = folder.said("--help");
    for line in ["-h", "help"] {
        assert_eq!(folder.said(line), help, "{line}");
    }
    for command in COMMANDS {
        assert!(help.contains(&format!("sheet {command} ")), "{command}");
    }
    for option in [
        "--names TABLE.csv",
        "--other-names TABLE.csv",
        "--records N",
        "--tariff FILE",
        "--house-tariff",
        "--places TABLE.csv",
    ] {
        assert!(help.lines().any(|line| line.starts_with(&format!("{option} "))), "{option}");
    }
    for option in ["--csv", "--lines", "--force", "--help", "--version"] {
        assert!(help.lines().any(|line| line.starts_with(&format!("{option} "))), "{option}");
    }
    assert!(help.contains("\nLIST is open,") && help.contains("\nExit status: 0 accepted"), "{help}");
    // What a form or an option does stands in one column.
    let described = help.lines().take_while(|line| !line.starts_with("LIST is")).filter(|line| !line.is_empty());
    for line in described {
        let (left, right) = (line.chars().take(38).collect::<String>(), line.chars().nth(38).unwrap());
        assert!(left.ends_with(' ') && right != ' ', "{line}");
    }
}

#[test]
fn help_of_a_command_has_its_forms_and_the_options_that_it_takes() {
    let folder = Folder::new("usage-command");
    for command in COMMANDS {
        let help = folder.said(&format!("help {command}"));
        assert!(help.starts_with(&format!("sheet {command}")), "{help}");
        for line in [format!("{command} --help"), format!("--help {command}"), format!("{command} -h")] {
            assert_eq!(folder.said(&line), help, "{line}");
        }
    }
    // Help comes ahead of files and of what else is wrong.
    assert_eq!(folder.said("plan none.sheet two --help"), folder.said("help plan"));
    let plan = folder.said("help plan");
    assert!(plan.contains("\n--lines ") && plan.contains("\n--records N ") && !plan.contains("--force"), "{plan}");
    assert!(folder.said("help cards").contains("\nLIST is open, the count K of a limited list"));
    folder.assert_told(("help plans", 2, "", "plans is no command. Did you mean plan? `sheet help` has them all.\n"));
    folder.assert_told(("help plan show", 2, "", "this is not how help is used\n\nsheet help "));
}

#[test]
fn no_words_at_all_are_wrong_usage_and_the_version_is_a_result() {
    let folder = Folder::new("usage-version");
    let nothing = folder.run("");
    assert_eq!((nothing.status, &nothing.out[..]), (2, ""));
    assert_eq!(nothing.err, folder.said("help"));
    assert_eq!(folder.said("--version"), concat!("sheet ", env!("CARGO_PKG_VERSION"), "\n"));
    folder.assert_told(("plan --version", 2, "", "plan does not take --version\n\nsheet plan FILE"));
    folder.assert_told(("--csv", 2, "", "sheet make TABLE.csv .. FILE"));
}

#[test]
fn wrong_commands_and_options_are_named() {
    let folder = Folder::with_sheets("usage-wrong", &[("s", S)]);
    for (line, told) in [
        ("plam s.sheet", "plam is no command. Did you mean plan? `sheet help` has them all.\n"),
        ("s.sheet", "s.sheet is no command. `sheet help` has them all.\n"),
        ("plan s.sheet --nmaes s.csv", "--nmaes is no option. Did you mean --names? `sheet help` has them all.\n"),
        ("plan s.sheet --name=s.csv", "--name is no option. Did you mean --names? `sheet help` has them all.\n"),
        ("plan s.sheet -x", "-x is no option. `sheet help` has them all.\n"),
        ("plan s.sheet -1", "-1 is no option. `sheet help` has them all.\n"),
        ("plan s.sheet --force", "plan does not take --force\n\nsheet plan FILE"),
        ("shut s.sheet --csv", "shut does not take --csv\n\nsheet shut FILE"),
        ("plan s.sheet --csv=yes", "--csv takes no value\n"),
        ("plan s.sheet --csv --csv", "--csv is given twice\n"),
        ("page s.sheet --places a.csv --places b.csv", "--places is given twice\n"),
        ("page s.sheet --places", "--places needs a value: --places TABLE.csv\n"),
        ("plan", "this is not how plan is used\n\nsheet plan FILE"),
        ("plan s.sheet 1 2", "this is not how plan is used\n\nsheet plan FILE"),
        ("show s.sheet 1", "this is not how show is used\n\nsheet show FILE"),
        ("make s.csv", "this is not how make is used\n\nsheet make TABLE.csv .. FILE"),
        ("make", "this is not how make is used\n"),
        ("make-tariff s.csv", "this is not how make-tariff is used\n"),
    ] {
        folder.assert_told((line, 2, "", told));
        assert!(folder.run(line).err.starts_with(told), "{line}");
    }
}

#[test]
fn a_value_may_stand_behind_an_equals_sign_and_words_after_two_dashes_are_no_options() {
    let folder = Folder::with_sheets("usage-values", &[("s", S)]);
    let named = folder.said("plan s.sheet --names s.csv");
    assert_eq!(folder.said("plan --names=s.csv s.sheet"), named);
    assert_eq!(folder.said("--names=s.csv plan s.sheet"), named);
    folder.put("a=b.csv", S);
    assert_eq!(folder.said("plan s.sheet --names=a=b.csv"), named);
    folder.assert_told(("plan s.sheet --names=", 2, "", " cannot be read: "));
    folder.put("--csv", folder.get("s.sheet"));
    let said = folder.said("plan --names s.csv -- --csv");
    assert_eq!(said, named.replace("sheet s.sheet: ", "sheet --csv: "));
    folder.assert_told(("plan -- s.sheet --csv", 2, "", "--csv is not a whole number from 0 up\n"));
}

#[test]
fn numbers_and_yards_that_are_wrong_are_told_as_typed() {
    let folder = Folder::with_sheets("usage-numbers", &[("s", S)]);
    let long = "99999999999999999999";
    for (line, told) in [
        (format!("plan s.sheet {long}"), format!("{long} is more than the tool can count to\n")),
        (format!("lists s.sheet 1 {long}"), format!("{long} is more than the tool can count to\n")),
        (format!("price s.sheet {long}"), format!("{long} is more than the tool can count to\n")),
        ("price s.sheet 0 0 2".into(), "yard 0 is given twice\n".into()),
        ("price s.sheet 0,2,0".into(), "yard 0 is given twice\n".into()),
        ("shut s.sheet 1 01".into(), "yard 1 is given twice\n".into()),
        ("price s.sheet 0,32".into(), "yard 32 cannot be in a set, which has room for yards 0 to 31\n".into()),
        ("price s.sheet 0-2".into(), "0-2 is not a whole number from 0 up\n".into()),
        ("price s.sheet +1".into(), "+1 is not a whole number from 0 up\n".into()),
        ("price s.sheet 0,,2".into(), "a number is missing: between commas and after = there is one\n".into()),
        ("cards s.sheet yards=".into(), "a number is missing: between commas and after = there is one\n".into()),
        ("cards s.sheet yards=0,0".into(), "yard 0 is given twice\n".into()),
        ("plan s.sheet ½".into(), "½ is not a whole number from 0 up\n".into()),
    ] {
        let answer = folder.run(&line);
        assert_eq!((answer.status, &answer.out[..], answer.err), (2, "", told), "{line}");
    }
    let priced = folder.said("price s.sheet 0 2");
    for line in ["price s.sheet 0,2", "price s.sheet 2,0", "price s.sheet 00 2"] {
        assert_eq!(folder.said(line), priced, "{line}");
    }
    folder.assert_told(("plan s.sheet 18446744073709551615", 1, "k is 18446744073709551615. Asked: from 1 to 3", ""));
    folder.assert_told(("price s.sheet 0,31", 1, "The set is 80000001 hex and marks these yards: 0, 31.", ""));
}
