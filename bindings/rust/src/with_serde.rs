//! A template is serialized as its text, without its settings.

use crate::Template;
use serde::de::Error;
use serde::{Deserialize, Deserializer, Serialize, Serializer};
use std::borrow::Cow;

impl Serialize for Template {
    fn serialize<S: Serializer>(&self, serializer: S) -> Result<S::Ok, S::Error> {
        serializer.serialize_str(self.as_str())
    }
}

/// The template has the default settings; `Template::compile_with` gives its text others. A text that is no template is
/// an error with the refusal's sentence.
impl<'de> Deserialize<'de> for Template {
    fn deserialize<D: Deserializer<'de>>(deserializer: D) -> Result<Template, D::Error> {
        let text = Cow::<str>::deserialize(deserializer)?;
        Template::compile(text.as_bytes()).map_err(D::Error::custom)
    }
}
