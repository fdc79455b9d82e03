//! What turns work back.

/// A number of the scope document's table and the place it is given at.
#[derive(Debug, PartialEq, Eq)]
pub struct Refusal {
    pub number: u64,
    pub place: u64,
}

/// Lets pass what holds, else turns back under the number.
pub fn require(holds: bool, number: u64, place: u64) -> Result<(), Refusal> {
    if holds {
        Ok(())
    } else {
        Err(Refusal { number, place })
    }
}
