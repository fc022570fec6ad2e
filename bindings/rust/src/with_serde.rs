//! What is stored and sent: a moment, a stamp and a rule as text, a ready phrase as bytes, a reading as its number, and an instant as its
//! second and millisecond. What is read is checked as the calls check it.
use alloc::format;
use alloc::string::String;
use alloc::vec::Vec;
use core::fmt;

use serde::de::{Error as _, SeqAccess, Visitor};
use serde::ser::Error as _;
use serde::{Deserialize, Deserializer, Serialize, Serializer};

use crate::{read_stamp, write_stamp, Instant, Moment, Offset, Reading, Ready, Rule, Stamp};

/// As its stamp is written, without the offset: "2026-02-11T09:30:15.250".
impl Serialize for Moment {
    fn serialize<S: Serializer>(&self, serializer: S) -> Result<S::Ok, S::Error> {
        let text = write_stamp(Stamp { moment: *self, offset: Offset::East(0) }).map_err(S::Error::custom)?;
        serializer.serialize_str(text.trim_end_matches('Z'))
    }
}

impl<'de> Deserialize<'de> for Moment {
    fn deserialize<D: Deserializer<'de>>(deserializer: D) -> Result<Moment, D::Error> {
        let text = String::deserialize(deserializer)?;
        read_stamp(&format!("{text}Z")).map(|stamp| stamp.moment).map_err(D::Error::custom)
    }
}

/// As [`write_stamp`] writes it.
impl Serialize for Stamp {
    fn serialize<S: Serializer>(&self, serializer: S) -> Result<S::Ok, S::Error> {
        serializer.serialize_str(&write_stamp(*self).map_err(S::Error::custom)?)
    }
}

impl<'de> Deserialize<'de> for Stamp {
    fn deserialize<D: Deserializer<'de>>(deserializer: D) -> Result<Stamp, D::Error> {
        read_stamp(&String::deserialize(deserializer)?).map_err(D::Error::custom)
    }
}

/// As its text.
impl Serialize for Rule {
    fn serialize<S: Serializer>(&self, serializer: S) -> Result<S::Ok, S::Error> {
        serializer.serialize_str(self.as_str())
    }
}

impl<'de> Deserialize<'de> for Rule {
    fn deserialize<D: Deserializer<'de>>(deserializer: D) -> Result<Rule, D::Error> {
        Rule::parse(&String::deserialize(deserializer)?).map_err(D::Error::custom)
    }
}

/// As 1 or 2.
impl Serialize for Reading {
    fn serialize<S: Serializer>(&self, serializer: S) -> Result<S::Ok, S::Error> {
        serializer.serialize_u32(*self as u32)
    }
}

impl<'de> Deserialize<'de> for Reading {
    fn deserialize<D: Deserializer<'de>>(deserializer: D) -> Result<Reading, D::Error> {
        match u32::deserialize(deserializer)? {
            1 => Ok(Reading::First),
            2 => Ok(Reading::Second),
            number => Err(D::Error::custom(format_args!("no such reading: {number}"))),
        }
    }
}

/// As its second and its millisecond, in this order.
impl Serialize for Instant {
    fn serialize<S: Serializer>(&self, serializer: S) -> Result<S::Ok, S::Error> {
        (self.second, self.millisecond).serialize(serializer)
    }
}

impl<'de> Deserialize<'de> for Instant {
    fn deserialize<D: Deserializer<'de>>(deserializer: D) -> Result<Instant, D::Error> {
        Deserialize::deserialize(deserializer).map(|(second, millisecond)| Instant { second, millisecond })
    }
}

/// As its bytes. Damaged ones are refused when they are run.
impl Serialize for Ready {
    fn serialize<S: Serializer>(&self, serializer: S) -> Result<S::Ok, S::Error> {
        serializer.serialize_bytes(self.as_bytes())
    }
}

impl<'de> Deserialize<'de> for Ready {
    fn deserialize<D: Deserializer<'de>>(deserializer: D) -> Result<Ready, D::Error> {
        deserializer.deserialize_bytes(ReadyVisitor)
    }
}

/// Accepts bytes, and a sequence of numbers, which is what bytes are in JSON.
struct ReadyVisitor;

impl<'de> Visitor<'de> for ReadyVisitor {
    type Value = Ready;

    fn expecting(&self, f: &mut fmt::Formatter<'_>) -> fmt::Result {
        f.write_str("the bytes of a ready phrase")
    }

    fn visit_bytes<E: serde::de::Error>(self, bytes: &[u8]) -> Result<Ready, E> {
        Ready::from_bytes(bytes).ok_or_else(|| E::invalid_length(bytes.len(), &self))
    }

    fn visit_seq<A: SeqAccess<'de>>(self, mut sequence: A) -> Result<Ready, A::Error> {
        let mut bytes = Vec::new();
        while let Some(byte) = sequence.next_element()? {
            bytes.push(byte);
        }
        self.visit_bytes(&bytes)
    }
}
