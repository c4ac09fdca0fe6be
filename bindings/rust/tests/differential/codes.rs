use kovrelna_evidence::calls::Call;
use kovrelna_evidence::cases::{codes, codes_and_room, codes_with_tables};
use kovrelna_evidence::compare::{expand, expand_with};
use kovrelna_reference::generate::Random;
use kovrelna_reference::record::code_value;

/// Every code alone, and all together in both orders.
#[test]
fn every_code() {
    let mut codes: Vec<u8> = (0..=255).collect();
    for &code in &codes {
        assert_eq!(expand(&[code], 1), Ok(vec![code_value(code)]));
    }
    let values = expand(&codes, 256).unwrap();
    assert!(values.windows(2).all(|pair| pair[0] < pair[1]));
    codes.reverse();
    expand(&codes, 300).unwrap();
}

/// The ends of each part: 2^e times 32, minus 32, and 2^e times 63, minus 32.
#[test]
fn by_hand() {
    let cases = [
        (0, 0),
        (1, 1),
        (31, 31),
        (32, 32),
        (33, 34),
        (63, 94),
        (64, 96),
        (95, 220),
        (96, 224),
        (127, 472),
        (128, 480),
        (159, 976),
        (160, 992),
        (191, 1_984),
        (192, 2_016),
        (223, 4_000),
        (224, 4_064),
        (255, 8_032),
    ];
    for (code, value) in cases {
        assert_eq!(expand(&[code], 1), Ok(vec![value]), "{code}");
    }
}

#[test]
fn random_codes() {
    let random = &mut Random::new(14);
    (0..2_000).for_each(|_| codes(random));
}

/// Lengths and outputs: row 1, then row 10. With a table that is refused row 12 comes between.
#[test]
fn lengths() {
    let table: Vec<i16> = (0..256).collect();
    for length in [0usize, 1, 2, 3, 4, 5, 4_095, 4_096, 4_097, 9_000] {
        let codes: Vec<u8> = (0..length).map(|k| (k * 7) as u8).collect();
        for room in [0, 1, length.saturating_sub(1), length, length + 1, 9_000] {
            let row = match length {
                0 | 4_097.. => Some((1, 0)),
                _ if room < length => Some((10, length as u64)),
                _ => None,
            };
            assert_eq!(expand(&codes, room).err(), row, "{length} {room}");
            let found = expand_with(&codes, &table, room).err();
            assert_eq!(found, row, "{length} {room}");
            let row = row.filter(|&row| row == (1, 0)).or(Some((12, 0)));
            let found = expand_with(&codes, &table[..255], room).err();
            assert_eq!(found, row, "{length} {room}");
        }
    }
}

/// The built-in values as a table give what expand gives: of every code, and of random codes, refusals
/// included.
#[test]
fn built_in_values_as_a_table() {
    let every: Vec<u8> = (0..=255).collect();
    let table = expand(&every, 256).unwrap();
    assert_eq!(expand_with(&every, &table, 300), Ok(table.clone()));
    for code in every {
        assert_eq!(expand_with(&[code], &table, 1), expand(&[code], 1));
    }
    let random = &mut Random::new(16);
    for _ in 0..500 {
        let (codes, room) = codes_and_room(random);
        assert_eq!(expand_with(&codes, &table, room), expand(&codes, room));
    }
}

/// The least and the greatest value at the ends of a table, and a rise that no i16 holds.
#[test]
fn the_widest_tables() {
    let mut table: Vec<i16> = (-128..128).collect();
    (table[0], table[255]) = (i16::MIN, i16::MAX);
    let values = vec![i16::MAX, i16::MIN, -127, 0];
    assert_eq!(expand_with(&[255, 0, 1, 128], &table, 4), Ok(values));
    let low = i16::MIN..i16::MIN + 128;
    let table: Vec<i16> = low.chain(i16::MAX - 127..=i16::MAX).collect();
    let values = vec![i16::MIN, -32_641, 32_640, i16::MAX];
    assert_eq!(expand_with(&[0, 127, 128, 255], &table, 6), Ok(values));
}

#[test]
fn random_tables() {
    let random = &mut Random::new(17);
    (0..3_000).for_each(|_| codes_with_tables(random));
    let counts = Call::ExpandWith.counts();
    let seen = |row: u32| counts[row as usize] > 100;
    let rows = Call::ExpandWith.rows();
    assert!(seen(0) && rows.iter().all(|&row| seen(row)), "{counts:?}");
}
