//! Cuts a block's columns into bands that fit across, so that wide runs wrap.

/// Columns in order, each band as full as its room allows. A band has at least one column, however narrow the room.
pub fn bands<T>(columns: &[T], room: usize, width_of: impl Fn(&T) -> usize) -> Vec<&[T]> {
    let mut bands = Vec::new();
    let (mut from, mut used) = (0, 0);
    for (at, column) in columns.iter().enumerate() {
        let width = width_of(column);
        if used + width > room && at > from {
            bands.push(&columns[from..at]);
            (from, used) = (at, 0);
        }
        used += width;
    }
    if from < columns.len() {
        bands.push(&columns[from..]);
    }
    bands
}
