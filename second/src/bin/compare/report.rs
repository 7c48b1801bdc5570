//! Reports a difference.

use second::replay::hex;
use std::process::exit;

/// Reports a difference and ends the run.
pub fn differ(what: &str, inputs: &[(&str, &[u8])], second: &str, product: &str) -> ! {
    println!("difference: {}", what);
    for (name, bytes) in inputs {
        println!("{} ({} bytes): {}", name, bytes.len(), hex(bytes));
    }
    println!("second checker: {}", second);
    println!("product: {}", product);
    exit(1);
}

/// A program's output for a report; a long one is cut.
pub fn shown(output: &[u8]) -> String {
    let text = String::from_utf8_lossy(output).into_owned();
    if text.len() > 20_000 {
        let mut short: String = text.chars().take(20_000).collect();
        short.push_str(" and more");
        return format!("{:?}", short);
    }
    format!("{:?}", text)
}
