//! The text that a derived `Debug` writes of a value.

/// The text with each number in it as `#`, and the numbers.
pub fn shape_and_numbers(text: &str) -> (String, Vec<u32>) {
    let mut shape = String::new();
    for character in text.chars() {
        match character.is_ascii_digit() {
            false => shape.push(character),
            true if !shape.ends_with('#') => shape.push('#'),
            true => {}
        }
    }
    let numbers = text.split(|character: char| !character.is_ascii_digit());
    (
        shape,
        numbers.filter_map(|number| number.parse().ok()).collect(),
    )
}
