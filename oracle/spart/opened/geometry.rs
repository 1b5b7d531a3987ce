
pub fn opened_axis_distance(v: f64, lo: f64, len: f64) -> f64 {
    axis_distance(v, lo, len)
}
