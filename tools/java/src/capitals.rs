//! Capitals beyond ASCII, as Java 17 has them.

use std::ops::RangeInclusive;

/// Whether Java 17 has another character or others as the capital: by Unicode 13, where this program may know a later one.
pub fn has_capital(character: char) -> bool {
    !character.to_uppercase().eq([character]) && !AFTER_UNICODE_13.iter().any(|range| range.contains(&character))
}

/// Small letters that have a capital only since Unicode 14 or later.
const AFTER_UNICODE_13: [RangeInclusive<char>; 19] = [
    '\u{19b}'..='\u{19b}',
    '\u{264}'..='\u{264}',
    '\u{1c8a}'..='\u{1c8a}',
    '\u{2c5f}'..='\u{2c5f}',
    '\u{a7c1}'..='\u{a7c1}',
    '\u{a7cd}'..='\u{a7cd}',
    '\u{a7cf}'..='\u{a7cf}',
    '\u{a7d1}'..='\u{a7d1}',
    '\u{a7d3}'..='\u{a7d3}',
    '\u{a7d5}'..='\u{a7d5}',
    '\u{a7d7}'..='\u{a7d7}',
    '\u{a7d9}'..='\u{a7d9}',
    '\u{a7db}'..='\u{a7db}',
    '\u{10597}'..='\u{105a1}',
    '\u{105a3}'..='\u{105b1}',
    '\u{105b3}'..='\u{105b9}',
    '\u{105bb}'..='\u{105bc}',
    '\u{10d70}'..='\u{10d85}',
    '\u{16ebb}'..='\u{16ed3}',
];
