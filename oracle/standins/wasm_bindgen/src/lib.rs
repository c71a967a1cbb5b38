//! Stand-in for `wasm_bindgen`: a value of the host, which here is a text or a thing of the memory device.

use std::any::Any;
use std::fmt;
use std::rc::Rc;

/// A value of the host.
#[derive(Clone)]
pub enum JsValue {
    /// A text; errors are such.
    Text(String),
    /// Anything else that the host hands out, such as a file handle.
    Thing(Rc<dyn Any>),
}

impl JsValue {
    /// The host's value of a text.
    #[expect(clippy::should_implement_trait, reason = "as the original names it")]
    pub fn from_str(text: &str) -> Self {
        Self::Text(text.to_owned())
    }

    /// The text, if it is one.
    pub fn as_string(&self) -> Option<String> {
        match self {
            Self::Text(text) => Some(text.clone()),
            Self::Thing(_) => None,
        }
    }

    /// The thing, if it is one of type `T`.
    pub fn thing<T: Any>(&self) -> Option<&T> {
        match self {
            Self::Text(_) => None,
            Self::Thing(thing) => thing.downcast_ref(),
        }
    }
}

impl fmt::Debug for JsValue {
    fn fmt(&self, f: &mut fmt::Formatter<'_>) -> fmt::Result {
        match self {
            Self::Text(text) => f.debug_tuple("Text").field(text).finish(),
            Self::Thing(_) => f.write_str("Thing"),
        }
    }
}
