//! The proved reader agrees with upstream's Rust and keeps its promises: the part for every run of the tests.

use compare::{Archive, Prober};
use oracle::generators::{GENERATORS, Scale, by_name};

/// All texts at the small scale, but for those around the limit.
#[test]
fn on_all_generators_at_the_small_scale() {
    for generator in GENERATORS.iter().filter(|generator| generator.name != "limit") {
        let mut prober = Prober::new(Archive);
        let report = oracle::compare(generator, Scale::Small, &mut |text| prober.ask(text));
        assert_eq!(report.cases, generator.small);
        assert!(report.different == 0, "{}: {:#?}", generator.name, report.first);
        assert!(prober.broken == 0, "{}: {}", generator.name, prober.first[0]);
    }
}

/// Every sixth text around the limit: upstream takes a second for some.
#[test]
fn on_a_part_of_the_limit() {
    let mut prober = Prober::new(Archive);
    let (mut count, mut large) = (0, 0);
    by_name("limit").unwrap().each(Scale::Small, &mut |text| {
        if count % 6 == 0 {
            let expected = oracle::answer(text);
            assert_eq!(prober.ask(text), expected, "{}", text.escape_ascii());
            large += u64::from(expected.number() == 16);
        }
        count += 1;
    });
    assert!(prober.broken == 0, "{}", prober.first[0]);
    assert!(0 < large && large < count / 6, "{large} of {count}");
}

/// The Rust has no limit on the text, so document 01 alone decides.
#[test]
fn on_texts_that_are_too_long() {
    let mut prober = Prober::new(Archive);
    for text in [vec![b'#'; 65_536], vec![0xff; 65_536], vec![b'\n'; 70_000]] {
        let oracle::Answer::Refused(refusal) = prober.ask(&text) else {
            panic!("accepted");
        };
        assert_eq!((refusal.number, refusal.value), (1, 0));
    }
    assert!(prober.broken == 0, "{}", prober.first[0]);
}
