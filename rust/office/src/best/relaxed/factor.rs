//! Linear equations with a positive definite matrix (Cholesky).

/// The lower triangle whose product with itself, mirrored, is the matrix.
pub struct Factor {
    rows: Vec<Vec<f64>>,
}

impl Factor {
    /// Of a matrix given by its lower triangle.
    pub fn of(mut rows: Vec<Vec<f64>>) -> Factor {
        for at in 0..rows.len() {
            let (above, below) = rows.split_at_mut(at);
            make_row(&mut below[0], above);
        }
        Factor { rows }
    }

    /// The solution for a right side: first as if the matrix were the triangle, then as if it were the mirrored one.
    pub fn solve(&self, mut right: Vec<f64>) -> Vec<f64> {
        for (at, row) in self.rows.iter().enumerate() {
            right[at] = (right[at] - dot(&row[..at], &right[..at])) / row[at];
        }
        self.solve_mirrored(&mut right);
        right
    }

    fn solve_mirrored(&self, right: &mut [f64]) {
        for (at, row) in self.rows.iter().enumerate().rev() {
            let known = right[at] / row[at];
            right[at] = known;
            right.iter_mut().zip(&row[..at]).for_each(|(right, entry)| *right -= entry * known);
        }
    }
}

/// A row of the triangle, from that of the matrix and from the rows above. Where rounding leaves nothing for its last
/// entry, a huge one keeps the unknown near 0.
fn make_row(row: &mut [f64], above: &[Vec<f64>]) {
    for (column, other) in above.iter().enumerate() {
        row[column] = (row[column] - dot(&row[..column], &other[..column])) / other[column];
    }
    let at = above.len();
    let square = row[at] - dot(&row[..at], &row[..at]);
    row[at] = if square > 0.0 { square.sqrt() } else { f64::MAX.sqrt() };
}

pub fn dot(one: &[f64], other: &[f64]) -> f64 {
    one.iter().zip(other).map(|(one, other)| one * other).sum()
}
