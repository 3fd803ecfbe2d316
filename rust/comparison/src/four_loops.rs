//! Question 6 by the four loops of its wording, in plain Rust: reading is held against it, answer and time.
use planner::format::{amount, RECORD};

/// Each farm's hauls of one load, by yard, of a sheet whose form is good. The rule does not count loads.
pub type Hauls = Vec<Vec<u32>>;

pub fn hauls_of(sheet: &[u8], yards: usize) -> Hauls {
    let farms = sheet[RECORD * yards..].chunks(RECORD * yards);
    farms.map(|farm| farm.chunks(RECORD).map(amount).collect()).collect()
}

/// For all yards a, b and all farms p, q: haul(a, q) is at most haul(a, p) + haul(b, p) + haul(b, q).
pub fn holds(hauls: &Hauls, yards: usize) -> bool {
    for a in 0..yards {
        for b in 0..yards {
            for p in hauls {
                for q in hauls {
                    if q[a] > p[a] + p[b] + q[b] {
                        return false;
                    }
                }
            }
        }
    }
    true
}
