//! Texts for the exhaustive part.

/// Every text of at most so many bytes, each one of these.
pub fn short(bytes: &'static [u8], most: u32) -> impl Iterator<Item = Vec<u8>> {
    (0..=most).flat_map(move |length| {
        let texts = 0..bytes.len().pow(length);
        texts.map(move |number| {
            let digit = |at| number / bytes.len().pow(at) % bytes.len();
            (0..length).map(|at| bytes[digit(at)]).collect()
        })
    })
}

/// A text, and then with each byte changed to each other one or taken out, each put in before it, and cut at
/// each place.
pub fn changed(text: &[u8]) -> impl Iterator<Item = Vec<u8>> + '_ {
    let at_place = move |place| {
        let (before, from) = text.split_at(place);
        let with_byte = move |byte| {
            let put = [before, &[byte], &from[1..]].concat();
            [put, [before, &[byte], from].concat()]
        };
        let without = [[before, &from[1..]].concat(), before.to_vec()];
        (0..=255).flat_map(with_byte).chain(without)
    };
    let all = (0..text.len()).flat_map(at_place);
    std::iter::once(text.to_vec()).chain(all)
}
