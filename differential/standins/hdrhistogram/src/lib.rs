//! Stand-in for the crate `hdrhistogram`: a count and a maximum. Latencies are left out of the
//! comparison (document 01, last paragraph).

use std::fmt;
use std::marker::PhantomData;

/// Never made: the real crate answers it for a precision over 5.
#[derive(Debug)]
pub struct CreationError;

/// Never made: the real crate answers it when histograms cannot be merged.
#[derive(Debug)]
pub struct AdditionError;

impl fmt::Display for AdditionError {
    fn fmt(&self, f: &mut fmt::Formatter<'_>) -> fmt::Result {
        f.write_str("histograms cannot be merged")
    }
}

#[derive(Debug, Clone)]
pub struct Histogram<T> {
    count: u64,
    max: u64,
    of: PhantomData<T>,
}

impl Histogram<u64> {
    pub fn new(_digits: u8) -> Result<Self, CreationError> {
        Ok(Self {
            count: 0,
            max: 0,
            of: PhantomData,
        })
    }

    #[must_use]
    pub fn is_empty(&self) -> bool {
        self.count == 0
    }

    #[must_use]
    pub fn max(&self) -> u64 {
        self.max
    }

    #[must_use]
    pub fn value_at_quantile(&self, _quantile: f64) -> u64 {
        self.max
    }

    pub fn saturating_record(&mut self, value: u64) {
        self.count = self.count.saturating_add(1);
        self.max = self.max.max(value);
    }

    pub fn add(&mut self, other: &Self) -> Result<(), AdditionError> {
        self.count = self.count.saturating_add(other.count);
        self.max = self.max.max(other.max);
        Ok(())
    }
}
