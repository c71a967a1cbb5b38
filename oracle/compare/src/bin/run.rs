//! Runs one script and writes its output, or says the script in words.
//!
//! `run --with original|model|library [--piped] FILE > OUTPUT`, `run --with words FILE`. The original is run with the model beside
//! it, which says where only 01 refuses.

use std::io::Write;

use compare::arguments::{Arguments, stop};
use compare::library::Library;
use compare::pair;
use model::ModelRunner;
use script::{Runner, Script};

fn main() {
    let arguments = Arguments::read(&["with"], &["piped"]);
    let [file] = arguments.plain() else {
        stop("run --with original|model|library|words FILE");
    };
    let bytes = std::fs::read(file).unwrap_or_else(|why| stop(&format!("{file}: {why}")));
    let output = match arguments.word("with", "model").as_str() {
        "words" => words(&bytes).into_bytes(),
        "model" => whole(&mut ModelRunner, &bytes),
        "library" => match Library::find_silently(arguments.flag("piped")) {
            Ok(mut library) => {
                let output = whole(&mut library, &bytes);
                library.end();
                output
            }
            Err(why) => stop(&why),
        },
        "original" => pair::original_output(&bytes).unwrap_or_else(|why| stop(&why)),
        other => stop(&format!("there is no {other}")),
    };
    if let Err(why) = std::io::stdout().write_all(&output) {
        stop(&format!("the output could not be written: {why}"));
    }
}

fn words(bytes: &[u8]) -> String {
    match Script::parse(bytes) {
        Some(script) => script.to_string(),
        None => "not whole\n".to_owned(),
    }
}

fn whole(runner: &mut dyn Runner, bytes: &[u8]) -> Vec<u8> {
    let length = runner.run(bytes, &mut []);
    let mut output = vec![0; length];
    runner.run(bytes, &mut output);
    output
}
