//! Which available identifier means what a request means.
use crate::likely::{Favor, Likely};
use crate::subtags::{Base, Identifier, Refusal, Variant};

/// The identifiers that are available, and the places of their minimal forms, which rise.
pub struct Negotiator<'t> {
    likely: &'t Likely,
    available: Vec<Identifier>,
    minimal: Vec<(Base, usize)>,
}

/// The identifiers of a line, cut at each space.
pub fn read_list(line: &[u8]) -> Result<Vec<Identifier>, Refusal> {
    if line.is_empty() {
        return Ok(Vec::new());
    }
    line.split(|byte| *byte == b' ').map(Identifier::read).collect()
}

impl<'t> Negotiator<'t> {
    pub fn new(likely: &'t Likely, available: Vec<Identifier>) -> Self {
        let form = |(place, identifier): (usize, &Identifier)| {
            (likely.minimal(&identifier.base, Favor::Region), place)
        };
        let mut minimal: Vec<(Base, usize)> = available.iter().enumerate().map(form).collect();
        let key = |row: &(Base, usize)| (row.0, &available[row.1].variants, row.1);
        minimal.sort_by(|first, second| key(first).cmp(&key(second)));
        Negotiator { likely, available, minimal }
    }

    /// The place of the first request that is met, and the first identifier that meets it.
    pub fn negotiate(&self, requests: &[Identifier]) -> Option<(usize, &Identifier)> {
        let met = |(place, request): (usize, &Identifier)| Some((place, self.find(request)?));
        requests.iter().enumerate().find_map(met)
    }

    fn find(&self, request: &Identifier) -> Option<&Identifier> {
        let form = self.likely.minimal(&request.base, Favor::Region);
        let wanted: (Base, &[Variant]) = (form, &request.variants);
        let key = |row: &(Base, usize)| -> (Base, &[Variant]) { (row.0, &self.available[row.1].variants) };
        let place = self.minimal.partition_point(|row| key(row) < wanted);
        let row = self.minimal.get(place).filter(|row| key(row) == wanted)?;
        Some(&self.available[row.1])
    }
}
