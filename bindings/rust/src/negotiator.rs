//! What is available, and what is served of it.
use crate::calls::{self, Handle};
use crate::pool::{line, Pool};
use crate::Refusal;

const MET: i32 = 0;
const NOT_MET: i32 = 1;

/// A request that is met: its place, and that of the available identifier. Both are counted from 0.
#[derive(Clone, Copy, Debug, PartialEq, Eq, Hash)]
pub struct Match {
    /// The place of the request.
    pub request: usize,
    /// The place of the available identifier.
    pub available: usize,
}

/// What is available, by `Tables::negotiator` or `Tables::negotiator_in`. Any number of threads may use it at once.
#[derive(Debug)]
pub struct Negotiator {
    pool: Pool,
    word: &'static str,
    available: Vec<String>,
}

impl Negotiator {
    pub(crate) fn over(tables: Handle, word: &'static str, available: Vec<String>) -> Result<Self, Refusal> {
        Ok(Negotiator { pool: Pool::listing(tables, word, &available)?, word, available })
    }

    /// The identifiers that are available, as they were handed in.
    pub fn available(&self) -> &[String] {
        &self.available
    }

    /// The first request that an available identifier means, and the first such identifier; None where there is none.
    ///
    /// # Errors
    ///
    /// `Unsettled` where the likely tables are not settled, `List` where a request is no identifier, or `Memory`.
    ///
    /// ```
    /// use icu_locale_calls::{Match, Refusal, Tables, EXAMPLE};
    /// let negotiator = Tables::from_json(EXAMPLE.as_bytes())?.negotiator(["de", "en", "en-Latn"])?;
    /// assert_eq!(negotiator.negotiate(["zh", "en-US", "de"])?, Some(Match { request: 1, available: 1 }));
    /// assert_eq!(negotiator.negotiate(["zh"])?, None);
    /// assert_eq!(negotiator.negotiate(["en", "en-"]), Err(Refusal::List));
    /// # Ok::<(), Refusal>(())
    /// ```
    pub fn negotiate<I>(&self, requests: I) -> Result<Option<Match>, Refusal>
    where
        I: IntoIterator,
        I::Item: AsRef<str>,
    {
        let line = line(requests)?;
        let (mut request, mut available) = (0, 0);
        let number = self.pool.with(|handle| {
            // SAFETY: the slices are Rust's, the places are two of this call's, and so is the handle, by `&mut`.
            unsafe {
                calls::icu_locale_negotiate_in(
                    handle,
                    self.word.as_ptr(),
                    self.word.len(),
                    line.as_ptr(),
                    line.len(),
                    &mut request,
                    &mut available,
                )
            }
        })?;
        match number {
            MET => Ok(Some(Match { request, available })),
            NOT_MET => Ok(None),
            number => Err(Refusal::of_number(number)),
        }
    }
}
