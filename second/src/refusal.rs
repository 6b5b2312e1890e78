//! A refusal: the paper's number and its detail.

#[derive(Clone, Copy, PartialEq, Eq, Debug)]
pub struct Refusal {
    pub number: u32,
    pub detail: u64,
}

pub fn refuse<T>(number: u32) -> Result<T, Refusal> {
    refuse_with(number, 0)
}

pub fn refuse_with<T>(number: u32, detail: u64) -> Result<T, Refusal> {
    Err(Refusal { number, detail })
}
