//! A map of the places: each farm with a line to its yard, the yards to lease with their names, the others left white. North is up, and a
//! way to the east is as long on the map as one to the north.
use super::escaped;
use crate::csv::Place;
use crate::words::Names;
use planner::Plan;

const WIDTH: f64 = 700.0;
/// Room around the places, for names at the right.
const MARGIN: f64 = 24.0;
const ROOM_FOR_NAMES: f64 = 90.0;
/// How high a map is, that a list of some thirty farms fits one sheet of paper with it.
const LEAST_HEIGHT: f64 = 120.0;
const MOST_HEIGHT: f64 = 315.0;

/// The map, or nothing without places.
pub fn svg(plan: &Plan, names: &Names, places: &[Place]) -> String {
    let Some(map) = Map::of(places) else {
        return String::new();
    };
    let at = |asked: &str, is_yard: bool| {
        map.at(places.iter().find(|place| place.name == asked && place.is_yard == is_yard))
    };
    let farms: Vec<(Spot, Spot, usize)> = plan
        .farms
        .iter()
        .filter_map(|farm| {
            Some((at(names.farms.get(farm.farm)?, false)?, at(names.yards.get(farm.yard)?, true)?, farm.farm))
        })
        .collect();
    let yards: Vec<(Spot, usize)> =
        names.yards.iter().enumerate().filter_map(|(yard, name)| Some((at(name, true)?, yard))).collect();
    let is_leased = |yard: usize| plan.yards.iter().any(|open| open.yard == yard);
    // Names lie above ways and below marks, so that no mark is hidden.
    let marks: String = [
        farms.iter().map(|&(from, to, _)| way(from, to)).collect::<String>(),
        yards.iter().map(|&(at, yard)| yard_name(at, &escaped(&names.yards[yard]))).collect(),
        farms.iter().map(|&(at, _, farm)| farm_mark(at, farm)).collect(),
        yards.iter().map(|&(at, yard)| yard_mark(at, is_leased(yard))).collect(),
    ]
    .concat();
    let height = map.height;
    format!(
        "<svg class=\"map\" viewBox=\"0 0 {WIDTH} {height:.0}\" role=\"img\" aria-label=\"Map of yards and farms\">\n{marks}</svg>\n\
         <p><small>Red: yards to lease. White: yards that are not leased. Green: farms, by their numbers, each with a line to its \
         yard.</small></p>\n"
    )
}

/// A place on the map, counted from its left and its top.
type Spot = (f64, f64);

/// How degrees become places on the map.
struct Map {
    west: f64,
    north: f64,
    /// A degree to the east by the length of one to the north.
    narrower: f64,
    scale: f64,
    /// Where the westernmost place is: a narrow map stands in the middle.
    left: f64,
    height: f64,
}

impl Map {
    fn of(places: &[Place]) -> Option<Map> {
        let least = |angle: fn(&Place) -> f64| places.iter().map(angle).reduce(f64::min);
        let most = |angle: fn(&Place) -> f64| places.iter().map(angle).reduce(f64::max);
        let (west, east) = (least(|place| place.longitude)?, most(|place| place.longitude)?);
        let (south, north) = (least(|place| place.latitude)?, most(|place| place.latitude)?);
        let narrower = ((south + north) / 2.0).to_radians().cos().max(0.01);
        let room = [WIDTH - 2.0 * MARGIN - ROOM_FOR_NAMES, MOST_HEIGHT - 2.0 * MARGIN];
        // One place alone, or places on a line, have no width or height of their own.
        let scales = [room[0] / (narrower * (east - west)).max(1e-9), room[1] / (north - south).max(1e-9)];
        let scale = scales[0].min(scales[1]).min(1e6);
        let height = (scale * (north - south) + 2.0 * MARGIN).max(LEAST_HEIGHT);
        let left = (MARGIN + (room[0] - scale * narrower * (east - west)) / 2.0).max(MARGIN);
        Some(Map { west, north, narrower, scale, left, height })
    }

    fn at(&self, place: Option<&Place>) -> Option<Spot> {
        let place = place?;
        let east = self.narrower * (place.longitude - self.west) * self.scale;
        Some((self.left + east, MARGIN + (self.north - place.latitude) * self.scale))
    }
}

fn way((x, y): Spot, (to_x, to_y): Spot) -> String {
    format!("<line class=\"way\" x1=\"{x:.1}\" y1=\"{y:.1}\" x2=\"{to_x:.1}\" y2=\"{to_y:.1}\"/>\n")
}

fn farm_mark((x, y): Spot, farm: usize) -> String {
    let (right, above) = (x + 5.0, y - 4.0);
    let mark = format!("<circle class=\"farm\" cx=\"{x:.1}\" cy=\"{y:.1}\" r=\"3\"/>");
    format!("{mark}<text class=\"number\" x=\"{right:.1}\" y=\"{above:.1}\">{farm}</text>\n")
}

fn yard_mark((x, y): Spot, leased: bool) -> String {
    let (left, top) = (x - 5.0, y - 5.0);
    let class = if leased { "leased" } else { "left" };
    format!("<rect class=\"{class}\" x=\"{left:.1}\" y=\"{top:.1}\" width=\"10\" height=\"10\"/>\n")
}

fn yard_name((x, y): Spot, name: &str) -> String {
    let (right, below) = (x + 9.0, y + 4.0);
    format!("<text x=\"{right:.1}\" y=\"{below:.1}\">{name}</text>\n")
}
