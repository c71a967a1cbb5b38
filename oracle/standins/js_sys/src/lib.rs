//! Stand-in for `js_sys`: only the look at a property, which sah.rs takes for the text of an error.

use wasm_bindgen::JsValue;

/// Access to properties by name. The memory device's values have none.
pub struct Reflect;

impl Reflect {
    /// Always an error: no value here has properties.
    pub fn get(_target: &JsValue, key: &JsValue) -> Result<JsValue, JsValue> {
        Err(JsValue::from_str(&format!("no property {key:?}")))
    }
}
