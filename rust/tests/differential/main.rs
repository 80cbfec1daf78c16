//! The crate sise 0.8.0 and this package through the same lists of calls: every answer, error, panic with its message, and text has to be the same.
//!
//!     cargo test --test differential                              200,000 random lists of calls
//!     cargo test --test differential -- --lists N --seed S        others
//!
//! The crate's files are taken unchanged from SISE_SRC, by default from ../shared/docs/src/src beside the repository; where they are not at hand, nothing is run.

#[cfg(original)]
include!("../original/root.rs");

#[cfg(original)]
mod lists;
#[cfg(original)]
#[macro_use]
mod side;

/// What the comparison of the libraries in compare/ makes its cases with.
#[cfg(original)]
#[allow(dead_code)]
#[path = "../../../compare/src/damage.rs"]
mod damage;
#[cfg(original)]
#[allow(dead_code)]
#[path = "../../../compare/src/profile.rs"]
mod profile;
#[cfg(original)]
#[allow(dead_code)]
#[path = "../../../compare/src/random.rs"]
mod random;

#[cfg(original)]
side!(ours, ::sise);
#[cfg(original)]
side!(theirs, crate);

#[cfg(not(original))]
fn main() {
    println!("differential: not run, the source of the crate sise 0.8.0 is not at hand (SISE_SRC names its folder)");
}

#[cfg(original)]
fn main() -> std::process::ExitCode {
    let (mut left, mut seed) = (200_000u64, 1);
    let mut words = std::env::args().skip(1);
    while let Some(word) = words.next() {
        // cargo test hands its own words on; they have no meaning here.
        match (
            word.as_str(),
            words.by_ref().next().and_then(|word| word.parse().ok()),
        ) {
            ("--lists", Some(number)) => left = number,
            ("--seed", Some(number)) => seed = number,
            _ => {}
        }
    }
    std::panic::set_hook(Box::new(|_| {}));
    let mut maker = lists::Maker::new(seed);
    let (lists, mut calls, mut panics, mut differences) = (left, 0, 0, 0);
    while left > 0 {
        left -= 1;
        let list = maker.list();
        let (given, due) = (ours::run(&list), theirs::run(&list));
        calls += due.len();
        panics += due.iter().filter(|said| said.starts_with("panics")).count();
        if given != due {
            differences += 1;
            if differences <= 3 {
                let at = (0..).find(|&at| given.get(at) != due.get(at)).unwrap_or(0);
                println!(
                    "{list:?}\n  answer {at}: {:?}\n  the crate's: {:?}",
                    given.get(at),
                    due.get(at)
                );
            }
        }
    }
    println!("differential: {lists} lists, {calls} answers, {panics} of them panics, {differences} differences");
    std::process::ExitCode::from(u8::from(differences > 0))
}
