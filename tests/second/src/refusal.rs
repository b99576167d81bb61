//! "Numbered refusals": the numbers themselves.

/// The rows of the table, A5's S5 among them, in the paper's order; then A3's.
#[derive(Clone, Copy, Debug, PartialEq, Eq)]
pub enum Refusal {
    S1,
    S2,
    S3,
    S4,
    S5,
    D1,
    D2,
    D3,
    P1,
    P2,
    N1,
    B1,
    B2,
    B3,
    B4,
    B5,
    B6,
    B7,
    B8,
    W1,
    W2,
    W3,
    W4,
    W5,
    W6,
    W7,
    W8,
}

/// A number prints as the paper writes it.
impl std::fmt::Display for Refusal {
    fn fmt(&self, out: &mut std::fmt::Formatter<'_>) -> std::fmt::Result {
        write!(out, "{:?}", self)
    }
}

/// An answer with perhaps a refusal in front. Where one stands, `value` is
/// what the row says is returned (zero fields, a zeroed packet, no state).
#[derive(Clone, Copy, Debug, PartialEq, Eq)]
pub struct Judged<T> {
    pub refused: Option<Refusal>,
    pub value: T,
}

impl<T> Judged<T> {
    pub fn served(value: T) -> Judged<T> {
        Judged { refused: None, value }
    }

    pub fn refused(row: Refusal, value: T) -> Judged<T> {
        Judged { refused: Some(row), value }
    }
}
