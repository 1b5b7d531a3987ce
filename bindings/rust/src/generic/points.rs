//! Points and boxes with their numbers in lists, and points as the bytes that are lent.

/// A point with its payload.
#[derive(Clone, Copy, Debug, PartialEq)]
pub struct Point<const N: usize> {
    pub at: [f64; N],
    pub payload: u32,
}

/// A corner and the extents from there.
#[derive(Clone, Copy, Debug, PartialEq)]
pub struct Volume<const N: usize> {
    pub corner: [f64; N],
    pub extent: [f64; N],
}

/// Points as the bytes that a bulk insert takes: coordinates and payloads.
pub fn bytes<const N: usize>(points: &[impl Into<Point<N>> + Copy]) -> (Vec<u8>, Vec<u8>) {
    let points = || points.iter().map(|point| (*point).into());
    let coords = points().flat_map(|p| p.at.map(f64::to_le_bytes)).flatten();
    let payloads = points().flat_map(|p| p.payload.to_le_bytes());
    (coords.collect(), payloads.collect())
}

/// The first `count` points that stand in the bytes of an answer, or as many as there are.
pub fn points<const N: usize, P: From<Point<N>>>(coords: &[u8], payloads: &[u8], count: usize) -> Vec<P> {
    let float =
        |at: &[u8], axis| f64::from_le_bytes(at[8 * axis..8 * axis + 8].try_into().expect("eight bytes"));
    let pairs = coords.chunks_exact(8 * N).zip(payloads.chunks_exact(4)).take(count);
    let point = |(at, payload): (&[u8], &[u8])| Point {
        at: std::array::from_fn(|axis| float(at, axis)),
        payload: u32::from_le_bytes(payload.try_into().expect("four bytes")),
    };
    pairs.map(|pair| point(pair).into()).collect()
}
