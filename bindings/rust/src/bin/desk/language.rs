//! What scripts are read by: the edition and the lists of names that the user gives.

use std::path::PathBuf;

use gorembiin::{Edition, Lists};

use crate::failure::Failure;
use crate::files::Source;
use crate::options::Named;

/// Each list is as its file has it. Where none was named it is the library's default, and the edition is the first.
pub struct Language {
    pub edition: Edition,
    reserved: Option<Source>,
    currencies: Option<Source>,
    day_counters: Option<Source>,
}

impl Language {
    pub fn open(named: &Named) -> Result<Self, Failure> {
        let open = |file: &Option<PathBuf>| file.as_deref().map(Source::open).transpose();
        Ok(Language {
            edition: named.edition.unwrap_or(Edition::One),
            reserved: open(&named.reserved)?,
            currencies: open(&named.currencies)?,
            day_counters: open(&named.day_counters)?,
        })
    }

    pub fn lists(&self) -> Lists<'_> {
        let default = Lists::default();
        Lists {
            reserved: bytes_or(&self.reserved, default.reserved),
            currencies: bytes_or(&self.currencies, default.currencies),
            day_counters: bytes_or(&self.day_counters, default.day_counters),
        }
    }

    /// The options whose lists are malformed. The library says only that one is, so it is asked of each alone, with an empty
    /// script.
    pub fn malformed(&self) -> Vec<String> {
        let (lists, default) = (self.lists(), Lists::default());
        let reserved = Lists { reserved: lists.reserved, ..default };
        let currencies = Lists { currencies: lists.currencies, ..default };
        let day_counters = Lists { day_counters: lists.day_counters, ..default };
        [
            ("--reserved", &self.reserved, reserved),
            ("--currencies", &self.currencies, currencies),
            ("--day-counters", &self.day_counters, day_counters),
        ]
        .iter()
        .filter(|(_, _, alone)| gorembiin::read(b"", self.edition.number(), alone, &mut [], &mut []).is_err())
        .filter_map(|(option, source, _)| Some(format!("{option} {}", source.as_ref()?.name)))
        .collect()
    }
}

fn bytes_or<'a>(source: &'a Option<Source>, default: &'a [u8]) -> &'a [u8] {
    source.as_ref().map_or(default, |source| &source.bytes)
}
