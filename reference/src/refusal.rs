/// A refusal's number and place.
#[derive(Clone, Copy, Debug, PartialEq, Eq)]
pub struct Refusal {
    pub number: u8,
    pub place: usize,
}

pub const fn refusal(number: u8, place: usize) -> Refusal {
    Refusal { number, place }
}
