//! The page to print: its HTML is well-formed, and it has what the buyer signs.
use super::program::{Folder, BOERDE, LOADS, UNUSED};
use office::list::{Choice, List};
use office::page;
use office::words::Names;
use planner::table::Table;
use planner::Sheet;

/// Tags that have no end.
const VOID: [&str; 2] = ["meta", "!DOCTYPE"];

/// Every tag is closed in order, and no bare `<`, `>` or `&` stands in text.
fn assert_well_formed(html: &str) {
    let (before, style, after) = parts(html);
    assert!(!style.contains('<'), "{style}");
    let markup = [before, after].concat();
    let mut open = Vec::new();
    for piece in markup.split('<').skip(1) {
        let (tag, text) = piece.split_once('>').unwrap_or_else(|| panic!("a tag has no end: {piece}"));
        assert!(!text.contains('>') && text.split('&').skip(1).all(is_escaped), "{text}");
        let name = tag.trim_start_matches('/').split([' ', '/']).next().unwrap();
        assert_eq!(tag.matches('"').count() % 2, 0, "{tag}");
        match (tag.starts_with('/'), tag.ends_with('/') || VOID.contains(&name)) {
            (true, _) => assert_eq!(open.pop(), Some(name), "{html}"),
            (_, true) => {}
            _ => open.push(name),
        }
    }
    assert!(open.is_empty() && html.starts_with("<!DOCTYPE html>\n"), "{open:?}");
}

/// A page before its style, the style, and what follows it.
fn parts(html: &str) -> (&str, &str, &str) {
    let (before, style) = html.split_once("<style>").unwrap();
    let (style, after) = style.split_once("</style>").unwrap();
    (before, style, after)
}

fn is_escaped(behind_and: &str) -> bool {
    ["amp;", "lt;", "gt;", "quot;"].iter().any(|escape| behind_and.starts_with(escape))
}

const PLACES: &str = include_str!("../../../../sheets/boerde-places.csv");

#[test]
fn pages_of_every_list_are_well_formed() {
    let folder = Folder::with_sheets("page", &[("boerde", BOERDE), ("loads", LOADS), ("unused", UNUSED)]);
    folder.put("places.csv", PLACES);
    for line in [
        "boerde.sheet --names boerde.csv --places places.csv",
        "boerde.sheet 10 --names boerde.csv",
        "boerde.sheet 1",
        "boerde.sheet yards=0,4",
        "loads.sheet 3 --names loads.csv",
        "unused.sheet 2",
    ] {
        assert_well_formed(&folder.said(&format!("page {line}")));
    }
}

#[test]
fn the_check_of_pages_finds_what_is_not_well_formed() {
    let page = |body: &str| format!("<!DOCTYPE html>\n<html><style></style>{body}</html>");
    assert_well_formed(&page("<p>a &amp; b<br/></p>"));
    for body in ["<p>", "</p>", "<p><b></p></b>", "<p>a & b</p>", "<p>a > b</p>", "<p class=\"a>b</p>"] {
        assert!(std::panic::catch_unwind(|| assert_well_formed(&page(body))).is_err(), "{body}");
    }
}

#[test]
fn names_are_escaped_wherever_they_stand() {
    let odd = "cents,<b>North</b>,\"A & B \"\"x\"\"\"\nfee,1,2\n<script>alert(1)</script>,3,9\nR&D,5,1\n";
    let places = "kind,name,latitude,longitude\nyard,<b>North</b>,52,11\nyard,\"A & B \"\"x\"\"\",52.1,11\n\
                  farm,<script>alert(1)</script>,52,11.1\nfarm,R&D,52.1,11.2\n";
    let folder = Folder::with_sheets("page-names", &[("odd", odd), ("a&b", odd)]);
    folder.put("places.csv", places);
    let said = folder.said("page a&b.sheet --names a&b.csv --places places.csv");
    assert_well_formed(&said);
    for text in [
        "&lt;b&gt;North&lt;/b&gt;",
        "A &amp; B &quot;x&quot;",
        "&lt;script&gt;alert(1)",
        "R&amp;D",
        "<td>a&amp;b.sheet</td>",
    ] {
        assert!(said.contains(text), "{text}, in: {said}");
    }
    assert!(!said.contains("<script>") && !said.contains("<b>"), "{said}");
}

#[test]
fn the_page_has_the_sums_the_record_count_and_what_the_list_is_by() {
    let folder = Folder::with_sheets("page-facts", &[("boerde", BOERDE), ("unused", UNUSED)]);
    let said = folder.said("page boerde.sheet --names boerde.csv");
    for text in [
        "<title>Open plan</title>",
        "<h1>Open plan</h1>",
        "<tr><th>sheet</th><td>boerde.sheet</td></tr>",
        "<tr><th>record count</th><td><strong>290</strong></td></tr>",
        "<tr><th>yards to lease</th><td>5</td></tr>",
        "<tr><th>fees</th><td>15\u{202F}000.00</td></tr>",
        "<tr><th>hauls</th><td>36\u{202F}941.79</td></tr>",
        "<tr><th>fees and hauls</th><td><strong>51\u{202F}941.79</strong></td></tr>",
        "Record count on the folder: <span></span>",
        "<td>costs 2\u{202F}270.12 more</td>",
        concat!("Made by sheet ", env!("CARGO_PKG_VERSION"), "."),
    ] {
        assert!(said.contains(text), "{text}, in: {said}");
    }
    let (yards, farms) = (said.matches("<tr class=\"\">").count(), "<td class=\"name\">Barleben</td>");
    assert!(yards == 5 + 28 && said.contains(farms), "{said}");
    let by = folder.said("page unused.sheet 2 --house-tariff");
    assert!(by.contains("<h1>Limited plan, k = 2, by the house tariff</h1>"), "{by}");
}

/// The part of a page that tells how far from best its list may be.
fn best(list: &List) -> String {
    let html = page::html(list, Sheet::of_hauls(&Table::s().sheet()), &Names::default(), &[]);
    assert_well_formed(&html);
    let (_, best) = html.split_once("<p class=\"best\">").unwrap();
    best.split_once(" <small>").unwrap().0.to_string()
}

#[test]
fn the_page_tells_the_floor_in_euros() {
    let sheet = Table::s().sheet();
    let cases = [
        (Choice::Open, 10, "no list is below 0.10: <strong>this one is the cheapest there is</strong>."),
        (
            Choice::Open,
            9,
            "no list is below 0.09: <strong>this one is at most 0.01, 11.12 %, above the cheapest</strong>.",
        ),
        (Choice::Open, 0, "no list is below 0.00: <strong>this one is at most 0.10 above the cheapest</strong>."),
        (
            Choice::Limited(1),
            9,
            "no single yard has hauls below 0.09: <strong>this one is the cheapest there is in hauls</strong>.",
        ),
        (
            Choice::Limited(2),
            4,
            "no list of at most 2 yards has hauls below 0.04: \
             <strong>this one is at most 0.01, 25.00 %, above the cheapest in hauls</strong>.",
        ),
    ];
    for (choice, cents, words) in cases {
        let mut list = List::of(Sheet::of_hauls(&sheet), choice).unwrap();
        list.floor.cents = cents;
        assert_eq!(best(&list), words);
    }
}

#[test]
fn an_unused_yard_and_the_only_yard_are_marked() {
    let folder = Folder::with_sheets("page-unused", &[("unused", UNUSED)]);
    let said = folder.said("page unused.sheet 2 --names unused.csv");
    let row = "<tr class=\"unused\"><td>1</td><td class=\"name\">Twin</td><td>0, no farm goes there</td>\
               <td>50\u{202F}000.00</td><td>0.00</td><td>50\u{202F}000.00</td><td>saves 50\u{202F}000.00</td></tr>\n";
    assert!(said.contains(row), "{said}");
    assert_eq!(said.matches("class=\"unused\"").count(), 1);
    let only = folder.said("page unused.sheet 1 --names unused.csv");
    assert!(only.contains("<td>the only yard</td></tr>") && !only.contains("class=\"unused\""), "{only}");
}

#[test]
fn a_map_is_there_only_with_places_and_has_every_yard_and_farm() {
    let folder = Folder::with_sheets("page-map", &[("boerde", BOERDE)]);
    folder.put("places.csv", PLACES);
    assert!(!folder.said("page boerde.sheet --names boerde.csv").contains("<svg"));
    let said = folder.said("page boerde.sheet 3 --names boerde.csv --places places.csv");
    let (_, map) = said.split_once("<svg").unwrap();
    let (map, _) = map.split_once("</svg>").unwrap();
    let count = |class: &str| map.matches(&format!("class=\"{class}\"")).count();
    assert_eq!((count("way"), count("farm"), count("leased"), count("left")), (28, 28, 3, 7));
    for name in ["Magdeburg", "Haldensleben", "Burg", "Schönebeck", "Oschersleben", "Halberstadt", "Staßfurt"] {
        assert!(map.contains(&format!(">{name}</text>")), "{name}");
    }
    let numbers = map.split("class=\"number\"").skip(1).map(|text| text.split(['>', '<']).nth(1).unwrap());
    assert_eq!(numbers.collect::<Vec<_>>(), (0..28).map(|farm| farm.to_string()).collect::<Vec<_>>());
    assert!(!map.contains("NaN") && !map.contains("inf"), "{map}");
}

#[test]
fn places_that_are_missing_faulty_or_without_names_are_told() {
    let folder = Folder::with_sheets("page-places", &[("boerde", BOERDE)]);
    folder.put("places.csv", PLACES);
    let without = |names: [&str; 2]| {
        let kept = |line: &&str| !names.iter().any(|name| line.contains(&format!(",{name},")));
        PLACES.lines().filter(kept).collect::<Vec<_>>().join("\n")
    };
    folder.put("fewer.csv", without(["Burg", "Barleben"]));
    folder.put("faulty.csv", PLACES.replace("52.13,11.64", "152.13,11,64"));
    let line = |places: &str| format!("page boerde.sheet --names boerde.csv --places {places}");
    folder.assert_told((&line("fewer.csv"), 1, "", "fewer.csv has no place for yard Burg, farm Barleben\n"));
    folder.assert_told((&line("faulty.csv"), 1, "", "faulty.csv: line 2, column 3: under latitude: 152.13 is outside"));
    folder.assert_told((&line("none.csv"), 2, "", "none.csv cannot be read"));
    let told = "places have names, so the sheet's are needed too: --names TABLE.csv\n";
    folder.assert_told(("page boerde.sheet --places places.csv", 2, "", told));
    folder.assert_told(("plan boerde.sheet --places places.csv", 2, "", "plan does not take --places\n"));
}

#[test]
fn one_place_alone_and_places_on_a_line_have_a_map() {
    let folder = Folder::with_sheets("page-one-place", &[("one", "cents,A\nfee,1\nF,2\n")]);
    for (yard, farm) in [("52,11", "52,11"), ("52,11", "52,12"), ("52,11", "53,11"), ("-90,180", "90,-180")] {
        folder.put("places.csv", format!("kind,name,latitude,longitude\nyard,A,{yard}\nfarm,F,{farm}\n"));
        let said = folder.said("page one.sheet --names one.csv --places places.csv");
        assert_well_formed(&said);
        assert!(said.contains("class=\"leased\"") && !said.contains("NaN") && !said.contains("inf\""), "{said}");
    }
}
