//! One page of HTML to print and sign: the list, the record count, what no list is below, and a map where places are given. Amounts are
//! in euros here.
mod map;

use crate::csv::Place;
use crate::list::List;
use crate::words::best::{above, below, rests_on};
use crate::words::list::several_loads;
use crate::words::tables::name;
use crate::words::{counts, Names};
use planner::format::RECORD;
use planner::{OpenYard, PlannedFarm, Sheet};

const STYLE: &str = include_str!("page/style.css");

pub fn html(list: &List, sheet: Sheet, names: &Names, places: &[Place]) -> String {
    let title = escaped(&names.title(&list.choice.title(), sheet.tariff));
    let parts = [
        format!("<div class=\"facts-and-best\">\n{}{}</div>\n", facts(list, sheet, names), best(list)),
        yards(list, sheet, names),
        map::svg(&list.plan, names, places),
        farms(list, names),
        signature(),
    ];
    let head = format!("<meta charset=\"utf-8\">\n<title>{title}</title>\n<style>\n{STYLE}</style>");
    let body = format!("<h1>{title}</h1>\n{}", parts.concat());
    format!("<!DOCTYPE html>\n<html lang=\"en\">\n<head>\n{head}\n</head>\n<body>\n{body}</body>\n</html>\n")
}

/// What the list is of and what it comes to. The record count is what the folder has too.
fn facts(list: &List, sheet: Sheet, names: &Names) -> String {
    let (plan, counts) = (&list.plan, counts(sheet, &list.plan));
    let mut facts = vec![
        ("sheet", escaped(&names.sheet)),
        ("record count", format!("<strong>{}</strong>", sheet.bytes.len() / RECORD)),
        ("yards and farms of the sheet", format!("{} and {}", counts.yards, counts.farms)),
        ("yards to lease", plan.yards.len().to_string()),
        ("fees", euros(plan.fees())),
        ("hauls", euros(plan.hauls())),
        ("fees and hauls", format!("<strong>{}</strong>", euros(plan.fees() + plan.hauls()))),
    ];
    facts.retain(|(_, fact)| !fact.is_empty());
    let row = |(fact, value)| format!("<tr><th>{fact}</th><td>{value}</td></tr>\n");
    format!("<table class=\"facts\">\n{}</table>\n", facts.into_iter().map(row).collect::<String>())
}

fn best(list: &List) -> String {
    let (below, above) = (below(list, euros), above(list, euros));
    format!("<p class=\"best\">{below}: <strong>{above}</strong>. <small>{}</small></p>\n", rests_on(list))
}

/// Each yard to lease with what goes to it and what shutting it would change. One that no farm goes to stands out.
fn yards(list: &List, sheet: Sheet, names: &Names) -> String {
    let plan = &list.plan;
    let heads = ["yard", NAME, "farms", loads_head(list), "fee", "hauls", "fee and hauls", "shutting it"];
    let row = |open: &OpenYard| {
        let farms: Vec<&PlannedFarm> = plan.farms_of(open.yard).collect();
        let hauls: u64 = farms.iter().map(|farm| farm.cost()).sum();
        let cells = [
            open.yard.to_string(),
            escaped(name(&names.yards, open.yard)),
            if farms.is_empty() { "0, no farm goes there".into() } else { farms.len().to_string() },
            farms.iter().map(|farm| farm.loads).sum::<u64>().to_string(),
            euros(open.fee.into()),
            euros(hauls),
            euros(hauls + u64::from(open.fee)),
            // The only yard of a list cannot be shut.
            sheet.shut(plan.set(), open.yard).map_or("the only yard".into(), change),
        ];
        (cells, if farms.is_empty() { "unused" } else { "" })
    };
    format!("<h2>Yards to lease</h2>\n{}", table(heads, plan.yards.iter().map(row)))
}

/// Each farm with its yard, the second half of them beside the first.
fn farms(list: &List, names: &Names) -> String {
    let farms = &list.plan.farms;
    let halves: String = farms.chunks(farms.len().div_ceil(2)).map(|half| part_of_farms(list, half, names)).collect();
    format!("<h2>Farms</h2>\n<div class=\"halves\">\n{halves}</div>\n")
}

fn part_of_farms(list: &List, farms: &[PlannedFarm], names: &Names) -> String {
    let loads = loads_head(list);
    let (one, all) = match loads {
        HIDDEN => ("haul", HIDDEN),
        _ => ("haul of one load", "haul of all loads"),
    };
    let row = |farm: &PlannedFarm| {
        let cells = [
            farm.farm.to_string(),
            escaped(name(&names.farms, farm.farm)),
            farm.yard.to_string(),
            escaped(name(&names.yards, farm.yard)),
            farm.loads.to_string(),
            euros(farm.haul.into()),
            euros(farm.cost()),
        ];
        (cells, "")
    };
    table(["farm", NAME, "yard", NAME, loads, one, all], farms.iter().map(row))
}

/// Heads of columns that have names, and of those that are not shown.
const NAME: &str = " ";
const HIDDEN: &str = "";

fn loads_head(list: &List) -> &'static str {
    if several_loads(&list.plan) {
        "loads"
    } else {
        HIDDEN
    }
}

/// Rows under heads, each row with its class.
fn table<const CELLS: usize>(
    heads: [&str; CELLS],
    rows: impl Iterator<Item = ([String; CELLS], &'static str)>,
) -> String {
    let cell = |head: &str, tag: &str, text: &str| match head {
        HIDDEN => String::new(),
        NAME => format!("<{tag} class=\"name\">{text}</{tag}>"),
        _ => format!("<{tag}>{text}</{tag}>"),
    };
    let head: String = heads.iter().map(|head| cell(head, "th", head.trim())).collect();
    let row = |(cells, class): ([String; CELLS], &str)| {
        let cells: String = heads.iter().zip(&cells).map(|(head, text)| cell(head, "td", text)).collect();
        format!("<tr class=\"{class}\">{cells}</tr>\n")
    };
    let rows: String = rows.map(row).collect();
    format!("<table class=\"list\">\n<thead><tr>{head}</tr></thead>\n<tbody>\n{rows}</tbody>\n</table>\n")
}

fn signature() -> String {
    let version = env!("CARGO_PKG_VERSION");
    format!(
        "<p class=\"signature\">Record count on the folder: <span></span> Date: <span></span> Signed: <span></span></p>\n\
         <p><small>Amounts are in euros. Made by sheet {version}. Proved of every accepted sheet: an open list costs at most three \
         times any other, the hauls of a limited one at most five times those of any other of as many yards or fewer.</small></p>\n"
    )
}

/// Cents as euros, thousands apart.
fn euros(cents: u64) -> String {
    let whole = (cents / 100).to_string();
    let digits = whole.len();
    let marked = whole.char_indices().map(|(at, digit)| match at > 0 && (digits - at).is_multiple_of(3) {
        true => format!("\u{202F}{digit}"),
        false => digit.to_string(),
    });
    format!("{}.{:02}", marked.collect::<String>(), cents % 100)
}

fn change(cents: i64) -> String {
    match cents {
        0 => "changes nothing".into(),
        1.. => format!("costs {} more", euros(cents.unsigned_abs())),
        _ => format!("saves {}", euros(cents.unsigned_abs())),
    }
}

/// A name as text of HTML.
fn escaped(text: &str) -> String {
    text.replace('&', "&amp;").replace('<', "&lt;").replace('>', "&gt;").replace('"', "&quot;")
}
