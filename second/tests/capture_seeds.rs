//! The captures of the generator: they reach everything, and each sort of damage
//! is what it says.

use second::capture::{file, lines, Fault, Verdict};
use second::cover::captures::CaptureCoverage;
use second::generate::captures::{capture, damaged, edges, long, Sort};

#[test]
fn two_hundred_seeds_of_captures_cover_everything() {
    let coverage = CaptureCoverage::of_seeds(0, 199, 400);
    let (_, wrong) = coverage.report();
    assert_eq!(wrong, Vec::<String>::new());
    assert_eq!(coverage.files, 400);
}

#[test]
fn right_captures_end() {
    for seed in 0..60 {
        for events in [0, 1, 60] {
            let made = capture(seed, events);
            let count = made.records.len() as u64;
            assert_eq!(file(&made.bytes()).1, Verdict::End(count));
            let run = seed % 16 == 5 && events > 0;
            assert!(run || count == events as u64, "seed {seed}: {count}");
            assert_eq!(made.bytes(), capture(seed, events).bytes());
        }
    }
}

/// The verdict that a sort of damage leads to.
fn leads_to(sort: Sort, verdict: Verdict) -> bool {
    let fault = match verdict {
        Verdict::Bad(fault, _) => Some(fault),
        _ => None,
    };
    match sort {
        Sort::Kind(_) | Sort::KindAndLength | Sort::KindAlone => fault == Some(Fault::Kind),
        Sort::Length(..) | Sort::LengthAndPadding(_) | Sort::LengthAlone(_) => {
            fault == Some(Fault::Length)
        }
        Sort::Padding { .. } | Sort::PaddingAndCount | Sort::AllPadding(_) => {
            fault == Some(Fault::Padding)
        }
        Sort::Count(_) => fault == Some(Fault::Count),
        Sort::Cut(..) | Sort::CutAndPadding(_) | Sort::NoEnd => {
            matches!(verdict, Verdict::Cut(_))
        }
        Sort::Empty => verdict == Verdict::Cut(0),
        Sort::After(_) => matches!(verdict, Verdict::End(_)),
    }
}

/// One seed after the other has the next sort, and all come in 200 seeds.
#[test]
fn every_sort_of_damage() {
    let sorts = Sort::all();
    assert_eq!(sorts.len(), 169);
    for seed in 0..2 * sorts.len() as u64 {
        let sort = sorts[seed as usize % sorts.len()];
        for events in [3, 40] {
            let verdict = file(&damaged(seed, events)).1;
            assert!(leads_to(sort, verdict), "{sort:?} {verdict:?}");
        }
    }
}

#[test]
fn edges_have_names_of_their_own() {
    let mut names: Vec<String> = edges().into_iter().map(|(name, _)| name).collect();
    let count = names.len();
    names.sort();
    names.dedup();
    assert_eq!(names.len(), count);
    assert_eq!(count, 639);
}

/// A long one has the bytes that were asked for, a right end, timeouts and resting
/// tags.
#[test]
fn long_captures() {
    let mut bytes = Vec::new();
    long(1, 6_000_000, &mut bytes).expect("memory takes all");
    assert!(
        (6_000_000..6_300_000).contains(&bytes.len()),
        "{}",
        bytes.len()
    );
    assert!(matches!(file(&bytes).1, Verdict::End(_)));
    let text = lines::of(&bytes);
    for word in [
        " read 7\n",
        " config 7\n",
        " tick\n",
        " completion 13\n",
        " take\n",
    ] {
        assert!(text.contains(word), "{word}");
    }
}
