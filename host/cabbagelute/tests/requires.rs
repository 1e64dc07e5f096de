//! Request R-1: `Requires` as packages with versions. The cases were worked out from the request's text; random values are judged by
//! a second reading and a second comparison, written here in a few lines of another shape.

use cabbagelute::{
    Operator, Package, PkgConfig, RequiresError, RequiresField, compare_versions, raw, version_meets,
};
use std::cmp::Ordering;

/// A value, and its items, each shown as `name` or as `name operator version`; or the index of the first malformed one.
type Case = (&'static str, Result<&'static [&'static str], u64>);

const ITEMS: &[Case] = &[
    // Separators: any number, also at the ends.
    ("", Ok(&[])),
    (" ", Ok(&[])),
    (",", Ok(&[])),
    (" ,\t, ", Ok(&[])),
    ("a", Ok(&["a"])),
    (" a", Ok(&["a"])),
    ("a ", Ok(&["a"])),
    (",a,", Ok(&["a"])),
    ("\ta\t", Ok(&["a"])),
    ("a b", Ok(&["a", "b"])),
    ("a,b", Ok(&["a", "b"])),
    ("a\tb", Ok(&["a", "b"])),
    ("a , b", Ok(&["a", "b"])),
    ("a,,b", Ok(&["a", "b"])),
    (",, a ,\t, b ,,", Ok(&["a", "b"])),
    ("a b c d", Ok(&["a", "b", "c", "d"])),
    ("a 1", Ok(&["a", "1"])),
    // Names run up to a blank, comma or one of = < > !.
    ("gtk+-3.0", Ok(&["gtk+-3.0"])),
    ("a.b_c-d", Ok(&["a.b_c-d"])),
    ("a;b", Ok(&["a;b"])),
    ("a~b", Ok(&["a~b"])),
    ("é", Ok(&["é"])),
    ("a\nb", Ok(&["a\nb"])),
    ("a\rb", Ok(&["a\rb"])),
    ("(a)", Ok(&["(a)"])),
    // The six operators, with and without blanks.
    ("a=1", Ok(&["a = 1"])),
    ("a<1", Ok(&["a < 1"])),
    ("a>1", Ok(&["a > 1"])),
    ("a<=1", Ok(&["a <= 1"])),
    ("a>=1", Ok(&["a >= 1"])),
    ("a!=1", Ok(&["a != 1"])),
    ("a = 1", Ok(&["a = 1"])),
    ("a < 1", Ok(&["a < 1"])),
    ("a > 1", Ok(&["a > 1"])),
    ("a <= 1", Ok(&["a <= 1"])),
    ("a >= 1", Ok(&["a >= 1"])),
    ("a != 1", Ok(&["a != 1"])),
    ("a\t>=\t1", Ok(&["a >= 1"])),
    ("a   >=   1", Ok(&["a >= 1"])),
    ("a >=1", Ok(&["a >= 1"])),
    ("a>= 1", Ok(&["a >= 1"])),
    ("a>=1,b", Ok(&["a >= 1", "b"])),
    ("a>=1 b", Ok(&["a >= 1", "b"])),
    ("a, b >= 2.0, c", Ok(&["a", "b >= 2.0", "c"])),
    ("a = 1 b = 2", Ok(&["a = 1", "b = 2"])),
    ("a=1,b=2", Ok(&["a = 1", "b = 2"])),
    ("a = b", Ok(&["a = b"])),
    ("a = b c", Ok(&["a = b", "c"])),
    ("1 = a", Ok(&["1 = a"])),
    ("a=1.2-rc~3+b", Ok(&["a = 1.2-rc~3+b"])),
    ("a=\n", Ok(&["a = \n"])),
    // Malformed: no name.
    ("=", Err(0)),
    ("= 1", Err(0)),
    ("<1", Err(0)),
    (">", Err(0)),
    ("!=1", Err(0)),
    (" , =1", Err(0)),
    ("a, = 1", Err(1)),
    ("a b, = 1", Err(2)),
    ("a,>=1", Err(1)),
    ("a=1=2", Err(1)),
    ("a=1 =2", Err(1)),
    ("a=1 !b", Err(1)),
    ("a=1<2", Err(1)),
    // An operator without a version.
    ("a=", Err(0)),
    ("a= ", Err(0)),
    ("a <", Err(0)),
    ("a >=", Err(0)),
    ("a !=", Err(0)),
    ("a =, 1", Err(0)),
    ("a=,b", Err(0)),
    ("b a=", Err(1)),
    ("a==1", Err(0)),
    ("a= =1", Err(0)),
    ("a=>1", Err(0)),
    ("a=<1", Err(0)),
    ("a< =1", Err(0)),
    ("a> =1", Err(0)),
    ("a<>1", Err(0)),
    ("a><1", Err(0)),
    ("a>==1", Err(0)),
    ("a!==1", Err(0)),
    ("a=!1", Err(0)),
    ("a<!=1", Err(0)),
    // A ! without =.
    ("!", Err(0)),
    ("!a", Err(0)),
    ("a!", Err(0)),
    ("a !", Err(0)),
    ("a!1", Err(0)),
    ("a ! = 1", Err(0)),
    ("a !! 1", Err(0)),
    ("a, b!", Err(1)),
    ("a,b,c!d", Err(2)),
    // The first malformed item counts.
    ("=,=", Err(0)),
    ("a,=,!", Err(1)),
];

/// Two versions, and how the first stands to the second.
const ORDERS: &[(&str, Ordering, &str)] = &[
    ("", Ordering::Equal, ""),
    ("", Ordering::Equal, "..."),
    ("1", Ordering::Equal, "1"),
    ("1", Ordering::Less, "2"),
    ("2", Ordering::Less, "10"),
    ("1.10", Ordering::Greater, "1.9"),
    ("1.9", Ordering::Less, "1.10"),
    ("1.0", Ordering::Greater, "1"),
    ("1", Ordering::Less, "1.0"),
    ("1.0.0", Ordering::Greater, "1.0"),
    ("1.", Ordering::Equal, "1"),
    (".1", Ordering::Equal, "1"),
    ("1..2", Ordering::Equal, "1.2"),
    ("1-2", Ordering::Equal, "1.2"),
    ("1~2", Ordering::Equal, "1.2"),
    ("1+2", Ordering::Equal, "1_2"),
    ("1~", Ordering::Equal, "1"),
    ("1.2", Ordering::Less, "12"),
    ("007", Ordering::Equal, "7"),
    ("0", Ordering::Equal, "000"),
    ("0", Ordering::Less, "1"),
    ("00", Ordering::Greater, ""),
    ("1.01", Ordering::Equal, "1.1"),
    ("1.001", Ordering::Less, "1.2"),
    ("1.010", Ordering::Equal, "1.10"),
    ("010", Ordering::Greater, "9"),
    ("99999999999999999999", Ordering::Less, "100000000000000000000"),
    ("18446744073709551616", Ordering::Greater, "18446744073709551615"),
    ("18446744073709551616", Ordering::Greater, "0"),
    ("340282366920938463463374607431768211456", Ordering::Greater, "340282366920938463463374607431768211455"),
    ("0000000000000000000000000000000000000001", Ordering::Equal, "1"),
    ("a", Ordering::Equal, "a"),
    ("a", Ordering::Less, "b"),
    ("B", Ordering::Less, "a"),
    ("Z", Ordering::Less, "a"),
    ("a", Ordering::Less, "aa"),
    ("ab", Ordering::Less, "b"),
    ("a", Ordering::Greater, ""),
    ("a.a", Ordering::Greater, "a"),
    ("a.a", Ordering::Less, "aa"),
    ("1", Ordering::Greater, "a"),
    ("0", Ordering::Greater, "z"),
    ("z", Ordering::Less, "0"),
    ("1.a", Ordering::Less, "1.1"),
    ("1.a", Ordering::Greater, "1"),
    ("1a", Ordering::Equal, "1.a"),
    ("1a", Ordering::Greater, "1"),
    ("1a2", Ordering::Equal, "1.a.2"),
    ("a1", Ordering::Equal, "a.1"),
    ("1.0rc1", Ordering::Greater, "1.0"),
    ("1.0rc1", Ordering::Less, "1.0rc2"),
    ("1.0rc2", Ordering::Less, "1.0rc10"),
    ("1.0alpha", Ordering::Less, "1.0beta"),
    ("1.0beta", Ordering::Less, "1.0.1"),
    ("1.0.1", Ordering::Greater, "1.0.a"),
    ("1é2", Ordering::Equal, "1.2"),
    ("é", Ordering::Equal, ""),
    ("1\n2", Ordering::Equal, "1.2"),
    ("2.0", Ordering::Greater, "1.99.99"),
    ("1.2.3", Ordering::Less, "1.2.4"),
    ("1.2.3", Ordering::Less, "1.3"),
];

/// The items of a value of `Requires`.
fn items(value: &str) -> Result<Vec<Package>, RequiresError> {
    config(Some(value), None).requires()
}

/// A configuration with these two fields.
fn config(requires: Option<&str>, private: Option<&str>) -> PkgConfig {
    let mut config = PkgConfig::parse("").expect("an empty text is accepted");
    config.requires = requires.map(str::to_owned);
    config.requires_private = private.map(str::to_owned);
    config
}

#[test]
fn items_as_the_request_says() {
    for (value, expected) in ITEMS {
        let found = items(value).map(|items| items.iter().map(ToString::to_string).collect::<Vec<_>>());
        match expected {
            Ok(shown) => {
                let shown: Vec<String> = shown.iter().map(ToString::to_string).collect();
                assert_eq!(found, Ok(shown), "{value:?}");
            }
            Err(index) => {
                assert_eq!(
                    found,
                    Err(RequiresError::Malformed(RequiresField::Requires, *index)),
                    "{value:?}"
                );
            }
        }
    }
}

#[test]
fn orders_as_the_request_says() {
    for (a, order, b) in ORDERS {
        assert_eq!(compare_versions(a, b), *order, "{a:?} {b:?}");
        assert_eq!(compare_versions(b, a), order.reverse(), "{b:?} {a:?}");
    }
}

#[test]
fn there_are_a_hundred_cases() {
    assert!(ITEMS.len() + ORDERS.len() > 150, "{} items, {} orders", ITEMS.len(), ORDERS.len());
}

#[test]
fn operators_go_by_the_order() {
    for (a, order, b) in ORDERS {
        for operator in Operator::ALL {
            let expected = match operator {
                Operator::Equal => order.is_eq(),
                Operator::Less => order.is_lt(),
                Operator::Greater => order.is_gt(),
                Operator::LessOrEqual => order.is_le(),
                Operator::GreaterOrEqual => order.is_ge(),
                Operator::NotEqual => order.is_ne(),
            };
            assert_eq!(version_meets(a, operator, b), expected, "{a:?} {operator} {b:?}");
        }
        assert_eq!(raw::version_meets(a.as_bytes(), 0, b.as_bytes()), 1);
        for none in [7, 8, 255, u32::MAX] {
            assert_eq!(raw::version_meets(a.as_bytes(), none, b.as_bytes()), 2);
        }
    }
}

#[test]
fn fields_5_before_6() {
    let both = config(Some("a, b=1"), Some("c")).requires().unwrap();
    let fields: Vec<u8> = both.iter().map(|package| package.field.number()).collect();
    assert_eq!(fields, [5, 5, 6]);
    let malformed = |requires, private| config(Some(requires), Some(private)).requires().unwrap_err();
    assert_eq!(malformed("a b =", "="), RequiresError::Malformed(RequiresField::Requires, 1));
    assert_eq!(malformed("a b", "a !"), RequiresError::Malformed(RequiresField::RequiresPrivate, 0));
    assert_eq!(
        config(None, Some("=")).requires().unwrap_err().to_string(),
        "malformed item 0 of Requires.private"
    );
    assert_eq!(config(None, None).requires(), Ok(Vec::new()));
}

#[test]
fn many_items_and_a_long_one() {
    let many = "a,".repeat(30_000);
    assert_eq!(items(&many).unwrap().len(), 30_000);
    let long = "n".repeat(1_000_000);
    assert_eq!(items(&format!("{long}>={long}")).unwrap()[0].to_string(), format!("{long} >= {long}"));
    let digits = "9".repeat(1_000_000);
    assert_eq!(compare_versions(&digits, &format!("0{digits}")), Ordering::Equal);
    assert_eq!(compare_versions(&digits, &format!("1{digits}")), Ordering::Less);
}

/// Splitmix64: the same numbers in every run.
struct Random(u64);

impl Random {
    fn below(&mut self, bound: usize) -> usize {
        self.0 = self.0.wrapping_add(0x9e37_79b9_7f4a_7c15);
        let mut z = self.0;
        z = (z ^ (z >> 30)).wrapping_mul(0xbf58_476d_1ce4_e5b9);
        z = (z ^ (z >> 27)).wrapping_mul(0x94d0_49bb_1331_11eb);
        ((z ^ (z >> 31)) % bound as u64) as usize
    }

    /// Up to so many characters of these.
    fn text(&mut self, of: &[&str], most: usize) -> String {
        (0..self.below(most + 1)).map(|_| of[self.below(of.len())]).collect()
    }
}

/// The second comparison: runs as keys, a number by its digits without leading zeros.
fn keys(version: &str) -> Vec<(bool, usize, String)> {
    let class = |c: char| (c.is_ascii_alphanumeric(), c.is_ascii_digit());
    let mut keys: Vec<(bool, usize, String)> = Vec::new();
    let mut before = (false, false);
    for c in version.chars() {
        if class(c) != before && class(c).0 {
            keys.push((class(c).1, 0, String::new()));
        }
        if let (true, Some(key)) = (class(c).0, keys.last_mut()) {
            if !(c == '0' && key.0 && key.2.is_empty()) {
                key.2.push(c);
                key.1 = if key.0 { key.2.len() } else { 0 };
            }
        }
        before = class(c);
    }
    keys
}

#[test]
fn random_versions() {
    let pieces = ["0", "1", "2", "9", "10", "00", "a", "b", "Z", "rc", ".", ".", "-", "~", "é", " "];
    let mut random = Random(1);
    let mut equal = 0;
    for _ in 0..200_000 {
        let (a, b, c) = (random.text(&pieces, 7), random.text(&pieces, 7), random.text(&pieces, 7));
        let order = compare_versions(&a, &b);
        assert_eq!(order, keys(&a).cmp(&keys(&b)), "{a:?} {b:?}");
        assert_eq!(order.reverse(), compare_versions(&b, &a));
        if order.is_le() && compare_versions(&b, &c).is_le() {
            assert!(compare_versions(&a, &c).is_le(), "{a:?} {b:?} {c:?}");
        }
        equal += u32::from(order.is_eq());
    }
    assert!((1_000..100_000).contains(&equal), "{equal} equal");
}

/// The second reading: words, signs and commas first, blanks only apart; then by what follows what.
fn second_reading(value: &str) -> Result<Vec<String>, u64> {
    let is_sign = |c: char| "=<>!".contains(c);
    let mut tokens: Vec<String> = Vec::new();
    let mut before = ' ';
    for c in value.chars() {
        let goes_on = match c {
            ' ' | '\t' => {
                before = ' ';
                continue;
            }
            ',' => false,
            '=' => "<>!".contains(before) && tokens.last().is_some_and(|token| token.len() == 1),
            _ if is_sign(c) => false,
            _ => !is_sign(before) && before != ' ' && before != ',',
        };
        match tokens.last_mut() {
            Some(last) if goes_on => last.push(c),
            _ => tokens.push(c.to_string()),
        }
        before = c;
    }
    let is_word = |token: &&String| !token.starts_with(is_sign) && *token != ",";
    let mut items = Vec::new();
    let mut rest = tokens.iter().peekable();
    while let Some(token) = rest.next() {
        if token == "," {
            continue;
        }
        let malformed = Err(items.len() as u64);
        if !is_word(&token) {
            return malformed;
        }
        match rest.next_if(|next| next.starts_with(is_sign)) {
            None => items.push(token.clone()),
            Some(sign) => match rest.next_if(is_word) {
                Some(version) if sign != "!" => items.push(format!("{token} {sign} {version}")),
                _ => return malformed,
            },
        }
    }
    Ok(items)
}

#[test]
fn random_values() {
    let pieces =
        ["a", "b", "1", ".", "é", "\n", " ", " ", "\t", ",", ",", "=", "<", ">", "!", "<=", ">=", "!="];
    let mut random = Random(2);
    let (mut accepted, mut refused) = (0, 0);
    for _ in 0..200_000 {
        let value = random.text(&pieces, 9);
        let found = items(&value).map(|items| items.iter().map(ToString::to_string).collect::<Vec<_>>());
        match second_reading(&value) {
            Ok(expected) => {
                assert_eq!(found, Ok(expected), "{value:?}");
                accepted += 1;
            }
            Err(index) => {
                assert_eq!(found, Err(RequiresError::Malformed(RequiresField::Requires, index)), "{value:?}");
                refused += 1;
            }
        }
    }
    assert!(accepted > 20_000 && refused > 20_000, "{accepted} {refused}");
}

/// A record of this kind.
fn record(kind: u16, payload: &[u8]) -> Vec<u8> {
    [&(payload.len() as u32).to_le_bytes(), &kind.to_le_bytes()[..], payload].concat()
}

/// The number and the three numbers of the detail, and the output, which was full of 7 before.
fn call(records: &[u8], room: usize) -> (u32, [u64; 3], Vec<u8>) {
    let (mut output, mut detail) = (vec![7; room], [7; 30]);
    let number = raw::packages(records, &mut output, &mut detail);
    assert_eq!(detail[24..], [7; 6]);
    let at = |i: usize| u64::from_le_bytes(detail[8 * i..8 * i + 8].try_into().unwrap());
    (number, [at(0), at(1), at(2)], output)
}

#[test]
fn the_call_on_its_buffers() {
    let records = [record(1, b"n"), record(5, b"a >= 1, b"), record(6, b"c"), record(8, &[0; 4])].concat();
    let expected = [
        record(12, &[5, 5]),
        record(13, b"a"),
        record(14, b"1"),
        record(12, &[5, 0]),
        record(13, b"b"),
        record(14, b""),
        record(12, &[6, 0]),
        record(13, b"c"),
        record(14, b""),
    ]
    .concat();
    let need = expected.len();
    assert_eq!(need, 3 * 20 + 4);
    assert_eq!(call(&records, need), (0, [0, need as u64, 0], expected.clone()));
    let longer = [expected, vec![7; 3]].concat();
    assert_eq!(call(&records, need + 3), (0, [0, need as u64, 0], longer));
    for room in [0, 1, need - 1] {
        assert_eq!(call(&records, room), (17, [17, need as u64, 0], vec![7; room]));
    }
    // 18, then 20, then 17.
    let broken = [record(5, b"="), vec![0]].concat();
    assert_eq!(call(&broken, 9), (18, [18, 0, 0], vec![7; 9]));
    assert_eq!(call(&[record(6, b"a"), record(5, b"a")].concat(), 9), (18, [18, 0, 0], vec![7; 9]));
    assert_eq!(call(&record(6, b"a b ="), 0), (20, [20, 6, 1], vec![]));
    let both = [record(5, b"a b c!"), record(6, b"=")].concat();
    assert_eq!(call(&both, 9), (20, [20, 5, 2], vec![7; 9]));
    assert_eq!(call(&[], 2), (0, [0, 0, 0], vec![7; 2]));
    // 19 before all else, and nothing is touched.
    for room in [0, 1, 23] {
        let (mut output, mut detail) = ([7; 100], vec![7; room]);
        assert_eq!(raw::packages(&broken, &mut output, &mut detail), 19);
        assert_eq!((output, detail), ([7; 100], vec![7; room]));
    }
}
