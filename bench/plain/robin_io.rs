//! What `refutation` takes of `robin_io`.
use crate::prelude::{AllocError, Vec};

pub fn put_decimal(text: &mut Vec<u8>, number: u128) -> Result<(), AllocError> {
    text.extend_from_slice(number.to_string().as_bytes())
}
