//! Tries the leaf comparisons out on the stand-in library: with no mistake planted nothing may differ, and each
//! planted mistake must be found. Built only with the feature `selfcheck`.

use compare::leaves;
use compare::library::Library;

fn main() {
    library_standin::plant(0);
    match leaves::compare(&mut Library::Linked, true, 1) {
        Ok(counts) => println!(
            "no mistake planted: {} comparisons, no difference",
            counts.values().sum::<u64>()
        ),
        Err(difference) => {
            println!("no mistake planted, and yet: {difference}");
            std::process::exit(1);
        }
    }
    let mut missed = 0;
    for (number, mistake) in (1..).zip(library_standin::MISTAKES) {
        library_standin::plant(number);
        match leaves::compare(&mut Library::Linked, true, 1) {
            Ok(_) => {
                missed += 1;
                println!("MISSED: {mistake}");
            }
            Err(mut difference) => {
                difference.truncate(150);
                println!("found: {mistake}: {difference}");
            }
        }
    }
    println!(
        "{} mistakes planted, {missed} missed",
        library_standin::MISTAKES.len()
    );
    std::process::exit(i32::from(missed > 0));
}
