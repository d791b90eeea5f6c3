//! Globs and sets in the formats of serde: a glob is its text, and a set is read from an array of texts. Texts are read under
//! the default options.

use std::fmt;

use serde::{
    de::{self, Deserializer, SeqAccess, Visitor},
    Deserialize, Serialize, Serializer,
};

use crate::{Glob, GlobSet, GlobSetBuilder};

impl Serialize for Glob {
    fn serialize<S: Serializer>(&self, serializer: S) -> Result<S::Ok, S::Error> {
        serializer.serialize_str(self.glob())
    }
}

struct GlobVisitor;

impl Visitor<'_> for GlobVisitor {
    type Value = Glob;

    fn expecting(&self, f: &mut fmt::Formatter<'_>) -> fmt::Result {
        f.write_str("a glob pattern")
    }

    fn visit_str<E: de::Error>(self, text: &str) -> Result<Glob, E> {
        Glob::new(text).map_err(E::custom)
    }
}

impl<'de> Deserialize<'de> for Glob {
    fn deserialize<D: Deserializer<'de>>(deserializer: D) -> Result<Glob, D::Error> {
        deserializer.deserialize_str(GlobVisitor)
    }
}

struct GlobSetVisitor;

impl<'de> Visitor<'de> for GlobSetVisitor {
    type Value = GlobSet;

    fn expecting(&self, f: &mut fmt::Formatter<'_>) -> fmt::Result {
        f.write_str("an array of glob patterns")
    }

    fn visit_seq<A: SeqAccess<'de>>(self, mut globs: A) -> Result<GlobSet, A::Error> {
        let mut builder = GlobSetBuilder::new();
        while let Some(glob) = globs.next_element()? {
            builder.add(glob);
        }
        builder.build().map_err(de::Error::custom)
    }
}

impl<'de> Deserialize<'de> for GlobSet {
    fn deserialize<D: Deserializer<'de>>(deserializer: D) -> Result<GlobSet, D::Error> {
        deserializer.deserialize_seq(GlobSetVisitor)
    }
}
