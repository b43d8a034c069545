//! Refusals by the paper's numbers. A call's refusals stand one below the other in the paper's
//! order, and the first that applies ends the call.

pub type Refusal = u8;

pub fn refuse(number: Refusal, applies: bool) -> Result<(), Refusal> {
    if applies {
        Err(number)
    } else {
        Ok(())
    }
}
