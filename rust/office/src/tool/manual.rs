//! How the tool is used, command by command.
use super::arguments::OPTIONS;

/// A command, its forms with what each does, the options that it takes, and what else is to know.
pub struct Manual {
    pub command: &'static str,
    pub forms: &'static [(&'static str, &'static str)],
    pub options: &'static [&'static str],
    pub more: &'static str,
}

/// The options of commands about a sheet, of those that print CSV too, and of those that print document 01's lines as well.
const SHEET: [&str; 4] = ["--names", "--records", "--tariff", "--house-tariff"];
const SHEET_OR_CSV: [&str; 5] = ["--names", "--records", "--tariff", "--house-tariff", "--csv"];
const SHEET_CSV_OR_LINES: [&str; 6] = ["--names", "--records", "--tariff", "--house-tariff", "--csv", "--lines"];

const LIST: &str = "\
LIST is open, the count K of a limited list, or a set of yards by their numbers, as yards=0,2. Without one it is the open list.
";

const TABLE: &str = "\
In the table, line 1 has the word cents and the names of the yards, line 2 the word fee and their fees, and each line after
them the name of a farm and the haul of one load to each yard. With the word euros for cents every amount has two decimals.
The second column, right after the names of the farms, may be headed loads: each farm's loads, 1 to 20, an empty cell for one
load, and no fee. Several tables are joined by the names of the farms: each has all farms, and yards of its own.
A table of distances begins with the words distances in hundreds of metres, its line 2 with fee in cents; the tariff that
prices them is given beside it. FILE may be -, standard output, and a table -, standard input.
";

const TARIFF_TABLE: &str = "\
In the table of a tariff, line 1 has the words end in hundreds of metres and rate in cents per hundred metres, and each line
after it the end and the rate of a band, up to 65535. The first band starts at 0, each other one where the one before it ends.
";

const STATUSES: &str = "\
Exit status: 0 accepted (a sheet of distances that make was given no tariff for: written), 1 refused or a faulty table, 2 wrong
usage or a file that cannot be used, 3 a defect of the program.
";

pub const MANUALS: [Manual; 14] = [
    Manual {
        command: "make",
        forms: &[("make TABLE.csv .. FILE", "writes the tables as a sheet to FILE and says what reading answers")],
        options: &["--records", "--tariff", "--house-tariff", "--force"],
        more: TABLE,
    },
    Manual {
        command: "show",
        forms: &[("show FILE", "the sheet as a table, with why it is refused where it is")],
        options: &SHEET_OR_CSV,
        more: "With --csv it is a table that makes the sheet again.\n",
    },
    Manual {
        command: "plan",
        forms: &[("plan FILE", "the open list"), ("plan FILE K", "the limited list for K yards")],
        options: &SHEET_CSV_OR_LINES,
        more: "",
    },
    Manual {
        command: "price",
        forms: &[("price FILE YARD ..", "the price of a set of yards, given by their numbers")],
        options: &SHEET_CSV_OR_LINES,
        more: "",
    },
    Manual {
        command: "lists",
        forms: &[
            ("lists FILE", "the open list and the limited ones for every K side by side"),
            ("lists FILE FROM TO", "the same for K from FROM to TO"),
        ],
        options: &SHEET_OR_CSV,
        more: "",
    },
    Manual {
        command: "shut",
        forms: &[
            ("shut FILE", "what shutting each yard of the open list would change"),
            ("shut FILE YARD ..", "the same for a set of yards, given by their numbers"),
        ],
        options: &SHEET,
        more: "",
    },
    Manual {
        command: "compare",
        forms: &[("compare FILE LIST LIST", "two lists of a sheet compared")],
        options: &SHEET,
        more: LIST,
    },
    Manual {
        command: "compare-sheets",
        forms: &[("compare-sheets FILE FILE [LIST]", "the lists of two sheets compared")],
        options: &["--names", "--other-names", "--tariff", "--house-tariff"],
        more: LIST,
    },
    Manual {
        command: "cards",
        forms: &[("cards FILE [LIST]", "a card for each grower, naming the yard")],
        options: &SHEET_OR_CSV,
        more: LIST,
    },
    Manual {
        command: "yards",
        forms: &[("yards FILE [LIST]", "for each yard the farms that go to it")],
        options: &SHEET_OR_CSV,
        more: LIST,
    },
    Manual {
        command: "page",
        forms: &[(
            "page FILE [LIST]",
            "one page of HTML to print: the list, the record count, the floor, and a map where places are given",
        )],
        options: &["--names", "--records", "--tariff", "--house-tariff", "--places"],
        more: LIST,
    },
    Manual {
        command: "make-tariff",
        forms: &[("make-tariff TABLE.csv FILE", "writes the table as a tariff to FILE and says what reading answers")],
        options: &["--force"],
        more: TARIFF_TABLE,
    },
    Manual {
        command: "tariff",
        forms: &[
            ("tariff FILE", "the tariff as a table of its bands"),
            ("tariff --house-tariff", "the house tariff as a table of its bands"),
        ],
        options: &["--house-tariff"],
        more: "",
    },
    Manual {
        command: "help",
        forms: &[("help", "all commands"), ("help COMMAND", "one command")],
        options: &[],
        more: "",
    },
];

pub fn manual(command: &str) -> Option<&'static Manual> {
    MANUALS.iter().find(|manual| manual.command == command)
}

impl Manual {
    /// The command's forms, its options and what else is to know.
    pub fn text(&self) -> String {
        let parts = [self.lines(), option_lines(|option| self.options.contains(&option)), self.more.into()];
        parts.into_iter().filter(|part| !part.is_empty()).collect::<Vec<_>>().join("\n")
    }

    fn lines(&self) -> String {
        self.forms.iter().map(|(form, words)| line(&format!("sheet {form}"), words)).collect()
    }
}

fn line(left: &str, right: &str) -> String {
    format!("{left:<37} {right}\n")
}

/// The options that are asked for, each with what it is for.
fn option_lines(is_asked: impl Fn(&str) -> bool) -> String {
    let options = OPTIONS.iter().filter(|spec| is_asked(spec.name));
    options.map(|spec| line(&[spec.name, spec.value.unwrap_or("")].join(" "), spec.words)).collect()
}

/// All commands, all options and the exit statuses.
pub fn overview() -> String {
    let commands: String = MANUALS.iter().map(Manual::lines).collect();
    let files = "A FILE or a table may be -, standard input. Words after -- are no options.\n";
    format!("{commands}\n{}\n{LIST}{files}{STATUSES}", option_lines(|_| true))
}

/// Which of these a wrong word may stand for, if one is near.
pub fn near(word: &str, words: impl Iterator<Item = &'static str>) -> String {
    let nearest = words.map(|other| (changes(word, other), other)).min();
    match nearest {
        Some((changes, other)) if changes <= 2 => format!(" Did you mean {other}?"),
        _ => String::new(),
    }
}

/// How many letters have to be put in, left out or exchanged to make one word of the other.
fn changes(word: &str, other: &str) -> usize {
    let other: Vec<char> = other.chars().collect();
    let mut before: Vec<usize> = (0..=other.len()).collect();
    for (row, letter) in word.chars().enumerate() {
        let mut here = vec![row + 1];
        for (column, &another) in other.iter().enumerate() {
            let exchanged = before[column] + usize::from(letter != another);
            here.push(exchanged.min(before[column + 1] + 1).min(here[column] + 1));
        }
        before = here;
    }
    before[other.len()]
}
