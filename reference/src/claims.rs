//! What the documents say of an answer, claim by claim.

/// Whether it holds, and its words.
pub type Claim = (bool, &'static str);

/// The error names the first claim that does not hold.
pub fn check(claims: impl IntoIterator<Item = Claim>) -> Result<(), String> {
    match claims.into_iter().find(|(holds, _)| !holds) {
        None => Ok(()),
        Some((_, claim)) => Err(claim.to_string()),
    }
}
