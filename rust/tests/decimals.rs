//! Decimals, beside the numbers of Rust's standard library and values worked by hand.
use wkt_proved::{Decimal, DecimalError};

/// Numbers in no order: the same on every run.
struct Chance(u64);

impl Chance {
    fn next(&mut self) -> u64 {
        self.0 ^= self.0 << 13;
        self.0 ^= self.0 >> 7;
        self.0 ^= self.0 << 17;
        self.0
    }

    /// A number of any size, as many small ones as large ones.
    fn units(&mut self) -> i128 {
        let bits = u128::from(self.next()) << 64 | u128::from(self.next());
        let size = i128::try_from(bits >> 1).unwrap() >> (self.next() % 127);
        if self.next() % 2 == 0 {
            size
        } else {
            -size
        }
    }
}

#[test]
fn texts() {
    for (text, units, shown) in [
        ("0", 0, "0"),
        ("-0", 0, "0"),
        ("+.5", 500, "0.5"),
        ("-.001", -1, "-0.001"),
        ("007.", 7000, "7"),
        ("12.3400000", 12_340, "12.34"),
        ("+-2", -2000, "-2"),
    ] {
        let number: Decimal<3> = text.parse().unwrap();
        assert_eq!(number.units(), units, "{text}");
        assert_eq!(number.to_string(), shown);
        assert_eq!(format!("{number:?}"), shown);
        assert_eq!(Decimal::from_units(units), number);
    }
    for (text, error) in [
        ("", DecimalError::NoNumber),
        (".", DecimalError::NoNumber),
        (" 1", DecimalError::NoNumber),
        ("1 ", DecimalError::NoNumber),
        ("1 2", DecimalError::NoNumber),
        ("1e3", DecimalError::NoNumber),
        ("1,5", DecimalError::NoNumber),
        ("1)", DecimalError::NoNumber),
        ("nan", DecimalError::NoNumber),
        ("1.2.3", DecimalError::NoNumber),
        ("0.0001", DecimalError::Places),
        (
            "170141183460469231731687303715884105.728",
            DecimalError::Large,
        ),
    ] {
        assert_eq!(text.parse::<Decimal<3>>(), Err(error), "{text}");
    }
    let least: Decimal<0> = "-170141183460469231731687303715884105728".parse().unwrap();
    assert_eq!(least.units(), i128::MIN);
    let most: Decimal<36> = "170.141183460469231731687303715884105727".parse().unwrap();
    assert_eq!(most.units(), i128::MAX);
    assert_eq!("170.2".parse::<Decimal<36>>(), Err(DecimalError::Large));
    let number: Decimal<2> = "-1.5".parse().unwrap();
    assert_eq!(format!("{number:>6}|{number:06}"), "  -1.5|-001.5");
    assert!(number < Decimal::default());
}

/// Each decimal is read from what is shown of it, and its `f64` is what Rust reads from that.
fn has_its_text<const PLACES: u8>(chance: &mut Chance) {
    for _ in 0..2000 {
        let number = Decimal::<PLACES>::from_units(chance.units());
        let text = number.to_string();
        assert_eq!(text.parse(), Ok(number));
        let nearest: f64 = text.parse().unwrap();
        assert_eq!(number.to_f64().to_bits(), nearest.to_bits(), "{text}");
    }
}

#[test]
fn texts_and_nearest_numbers() {
    let mut chance = Chance(1);
    has_its_text::<0>(&mut chance);
    has_its_text::<1>(&mut chance);
    has_its_text::<6>(&mut chance);
    has_its_text::<18>(&mut chance);
    has_its_text::<19>(&mut chance);
    has_its_text::<20>(&mut chance);
    has_its_text::<21>(&mut chance);
    has_its_text::<22>(&mut chance);
    has_its_text::<36>(&mut chance);
    // Just between two numbers, and beside that: 2^53 + 1 has an even neighbour below, 2^53 + 3 one above.
    for (units, nearest) in [
        (90_071_992_547_409_930, 9_007_199_254_740_992.0),
        (90_071_992_547_409_931, 9_007_199_254_740_994.0),
        (90_071_992_547_409_950, 9_007_199_254_740_996.0),
        (-90_071_992_547_409_949, -9_007_199_254_740_994.0),
    ] {
        let got = Decimal::<1>::from_units(units).to_f64();
        assert_eq!(got.to_bits(), f64::to_bits(nearest));
    }
}

/// Rust shows all digits of an `f64` where it is asked for enough places, so these say which are decimals.
fn is_exact<const PLACES: u8>(number: f64) {
    let all = format!("{number:.1100}");
    let shown = all.trim_end_matches('0').trim_end_matches('.');
    let places = shown.split_once('.').map_or(0, |(_, places)| places.len());
    let got = Decimal::<PLACES>::try_from(number);
    if places > usize::from(PLACES) {
        assert_eq!(got, Err(DecimalError::Places), "{number}");
    } else {
        assert_eq!(got, shown.parse(), "{number}");
    }
}

#[test]
fn exact_numbers() {
    assert_eq!(Decimal::<1>::try_from(0.5), "0.5".parse());
    assert_eq!(Decimal::<36>::try_from(0.1), Err(DecimalError::Places));
    assert_eq!(
        Decimal::<0>::try_from(f64::NAN),
        Err(DecimalError::NoNumber)
    );
    assert_eq!(
        Decimal::<0>::try_from(f64::INFINITY),
        Err(DecimalError::NoNumber)
    );
    let mut chance = Chance(2);
    for _ in 0..2000 {
        let whole = f64::from(u32::try_from(chance.next() >> 32).unwrap()) - 2e9;
        let scale = 2_f64.powi(i32::try_from(chance.next() % 160).unwrap() - 50);
        is_exact::<0>(whole * scale);
        is_exact::<6>(whole * scale);
        is_exact::<36>(whole * scale);
    }
    for number in [
        0.0,
        -0.0,
        2_f64.powi(127),
        -2_f64.powi(127),
        f64::MAX,
        f64::MIN_POSITIVE,
    ] {
        is_exact::<0>(number);
        is_exact::<20>(number);
    }
}
