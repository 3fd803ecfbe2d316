//! What the tool says about a tariff by itself, and about a sheet of distances without one.
use super::refusal::{explained, Given};
use super::{counted, sheets, Names, Said, ACCEPTED, DEFECT, REFUSED};
use planner::bands::{bytes, following, of};
use planner::{Counts, Refusal, Sheet, Tariff};

/// The bands in words, or why the tariff is refused.
pub fn shown(tariff: Tariff, names: &Names) -> Said {
    let title = match tariff {
        Tariff::House => "The house tariff".into(),
        _ => format!("Tariff {}", names.tariff),
    };
    let bands = of(tariff).unwrap_or_default();
    outcome(asked(tariff), tariff, format!("{title}: bands {}\n\n{}", bands.len(), sheets::bands(&bands)))
}

/// What reading answers to a tariff that was just made.
pub fn read(tariff: &[u8]) -> Said {
    let tariff = Tariff::Given(tariff);
    let bands = of(tariff).unwrap_or_default();
    let reaches = bands.last().map_or(0, |band| band.end);
    let accepted = format!("accepted: bands {}, distances up to {reaches} hundreds of metres\n", bands.len());
    outcome(asked(tariff), tariff, accepted)
}

/// The library's answer to an empty sheet, by a tariff: 11 or 12 where they refuse the tariff, and 1 where it passes.
fn asked(tariff: Tariff) -> Result<Counts, Refusal> {
    Sheet::of_distances(&[], tariff).read()
}

/// The text of a tariff that passes, or why it is refused.
pub fn outcome(empty_sheet: Result<Counts, Refusal>, tariff: Tariff, accepted: String) -> Said {
    let Err(refusal) = empty_sheet else {
        return Said { text: "The library accepts an empty sheet: it has a defect.\n".into(), status: DEFECT };
    };
    match explained(refusal, Sheet::of_distances(&[], tariff), &Given::default(), &Names::default()) {
        Ok(_) if refusal == Refusal(1) => Said { text: accepted, status: ACCEPTED },
        Ok(text) => Said { text, status: REFUSED },
        Err(text) => Said { text, status: DEFECT },
    }
}

/// What reading answers to a sheet of distances that no tariff was given for. It is asked by the tariff that reaches as far as a
/// tariff can and costs nothing: what that one refuses, every tariff refuses.
pub fn without_tariff(sheet: &[u8], names: &Names) -> Said {
    let widest = bytes(&following(&[(u16::MAX, 0)]));
    let not_asked = "No tariff was given, so whether one accepts it was not asked: --tariff FILE or --house-tariff";
    let written = |counts| format!("written as a sheet of distances: {}\n{not_asked}\n", counted(sheet, counts));
    let by_widest = Sheet::of_distances(sheet, Tariff::Given(&widest));
    let mut said = super::outcome(by_widest.read().map(written), by_widest, &Given::default(), names);
    if said.status == REFUSED {
        said.text += "No tariff was given; this sheet of distances is refused by every tariff.\n";
    }
    said
}
