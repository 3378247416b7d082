//! `judge-image check FILE` prints 0 or the refusal; `judge-image normal FILE OUT` writes the normal image,
//! `judge-image profiles FILE OUT` the image that a text of profiles stands for.

use std::{env, fs, process};

fn main() {
    let args: Vec<String> = env::args().skip(1).collect();
    let words: Vec<&str> = args.iter().map(String::as_str).collect();
    match words[..] {
        ["check", file] => println!("{}", judge::image::check(&read(file))),
        ["normal", file, out] => match judge::image::read(&read(file)) {
            Ok(policy) => fs::write(out, judge::normal::encode(&policy)).expect("the output can be written"),
            Err(number) => {
                eprintln!("refused {number}");
                process::exit(1);
            }
        },
        ["profiles", file, out] => match judge::profiles::policy(&read(file)) {
            Ok(policy) => fs::write(out, judge::normal::encode(&policy)).expect("the output can be written"),
            Err(refused) => {
                eprintln!("refused {}", refused.number());
                process::exit(1);
            }
        },
        _ => {
            eprintln!("judge-image check FILE | judge-image normal FILE OUT | judge-image profiles FILE OUT");
            process::exit(2);
        }
    }
}

fn read(file: &str) -> Vec<u8> {
    fs::read(file).unwrap_or_else(|error| {
        eprintln!("{file}: {error}");
        process::exit(2);
    })
}
