//! A refusal: its number and one place.

#[derive(Clone, Copy, PartialEq, Eq, PartialOrd, Ord, Debug)]
pub struct Refusal {
    pub number: u32,
    pub place: u32,
}

/// Builds a refusal; places are counts of bytes or numbers of things.
pub fn refusal(number: u32, place: usize) -> Refusal {
    Refusal {
        number,
        place: place as u32,
    }
}

impl std::fmt::Display for Refusal {
    fn fmt(&self, f: &mut std::fmt::Formatter) -> std::fmt::Result {
        write!(f, "refused {} {}", self.number, self.place)
    }
}
