//! The headers Accept-Language of a request.

/// One header Accept-Language, a list of several, or an `Option` of one.
///
/// ```
/// use icu_locale_calls::{Tables, EXAMPLE, EXAMPLE_SUPPLEMENT};
/// let tables = Tables::from_json_with(EXAMPLE.as_bytes(), EXAMPLE_SUPPLEMENT.as_bytes())?;
/// let available = ["en", "zh-Hant"];
/// assert_eq!(tables.serve("fr, zh-TW", available)?, Some("zh-Hant"));
/// assert_eq!(tables.serve(["fr", "zh-TW"], available)?, Some("zh-Hant"));
/// assert_eq!(tables.serve(Some("fr"), available)?, None);
/// # Ok::<(), icu_locale_calls::Refusal>(())
/// ```
pub trait Headers {
    /// The bytes of one header that says what these say.
    fn one(self) -> Vec<u8>;
}

impl Headers for &str {
    fn one(self) -> Vec<u8> {
        self.into()
    }
}

impl Headers for &String {
    fn one(self) -> Vec<u8> {
        self.as_str().into()
    }
}

impl Headers for String {
    fn one(self) -> Vec<u8> {
        self.into()
    }
}

// Several are one, and none is empty.
fn joined<T: AsRef<[u8]>>(headers: impl IntoIterator<Item = T>) -> Vec<u8> {
    let mut header = Vec::new();
    for (place, each) in headers.into_iter().enumerate() {
        if place > 0 {
            header.extend_from_slice(b", ");
        }
        header.extend_from_slice(each.as_ref());
    }
    header
}

impl<T: AsRef<[u8]>> Headers for Option<T> {
    fn one(self) -> Vec<u8> {
        joined(self)
    }
}

impl<T: AsRef<[u8]>, const N: usize> Headers for [T; N] {
    fn one(self) -> Vec<u8> {
        joined(self)
    }
}

impl<T: AsRef<[u8]>, const N: usize> Headers for &[T; N] {
    fn one(self) -> Vec<u8> {
        joined(self)
    }
}

impl<T: AsRef<[u8]>> Headers for &[T] {
    fn one(self) -> Vec<u8> {
        joined(self)
    }
}

impl<T: AsRef<[u8]>> Headers for Vec<T> {
    fn one(self) -> Vec<u8> {
        joined(self)
    }
}

impl<T: AsRef<[u8]>> Headers for &Vec<T> {
    fn one(self) -> Vec<u8> {
        joined(self)
    }
}
