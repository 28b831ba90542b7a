//! JSON-RPC's answers and faults.

use serde_json::{Value, json};

/// Why a request has no result.
pub struct Fault {
    code: i32,
    message: String,
}

fn fault(code: i32, message: &str) -> Fault {
    Fault { code, message: message.into() }
}

pub fn malformed(why: &str) -> Fault {
    fault(-32700, why)
}

pub fn invalid(why: &str) -> Fault {
    fault(-32600, why)
}

pub fn unknown(method: &str) -> Fault {
    fault(-32601, &format!("no method {method}"))
}

/// Of params.
pub fn wrong(why: &str) -> Fault {
    fault(-32602, why)
}

pub fn uninitialized() -> Fault {
    fault(-32002, "not initialized")
}

pub fn failed(id: Value, fault: Fault) -> Value {
    json!({ "jsonrpc": "2.0", "id": id, "error": { "code": fault.code, "message": fault.message } })
}

pub fn answer(id: Value, result: Result<Value, Fault>) -> Value {
    match result {
        Ok(result) => with(json!({ "jsonrpc": "2.0", "id": id }), "result", result),
        Err(fault) => failed(id, fault),
    }
}

/// The diagnostics of a file, with its version if it has one.
pub fn published(uri: &str, version: &Value, diagnostics: Vec<Value>) -> Value {
    let mut params = with(json!({ "uri": uri }), "diagnostics", diagnostics.into());
    if version.is_i64() {
        params["version"] = version.clone();
    }
    with(json!({ "jsonrpc": "2.0", "method": "textDocument/publishDiagnostics" }), "params", params)
}

/// An object with one more value, which is moved into it: `json!` would copy it.
pub fn with(mut object: Value, key: &str, value: Value) -> Value {
    object[key] = value;
    object
}
