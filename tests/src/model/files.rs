//! Document 01, "File plan": how many nodes each file holds, and a node's place.

use std::ops::Range;

/// Number of files.
pub const FILES: usize = 14;

/// Number of nodes in each file.
pub const COUNTS: [usize; FILES] = [32, 32, 24, 24, 16, 16, 16, 16, 8, 8, 8, 8, 8, 8];

/// Number of nodes in all files.
pub const PLACES: usize = NODES.len();

/// The first place of each file: the sum of the earlier counts.
const FIRST: [usize; FILES] = {
    let mut first = [0; FILES];
    let mut file = 1;
    while file < FILES {
        first[file] = first[file - 1] + COUNTS[file - 1];
        file += 1;
    }
    first
};

/// File and offset of each place.
const NODES: [(usize, usize); 224] = {
    let mut nodes = [(0, 0); 224];
    let mut file = 0;
    while file < FILES {
        let mut offset = 0;
        while offset < COUNTS[file] {
            nodes[FIRST[file] + offset] = (file, offset);
            offset += 1;
        }
        file += 1;
    }
    nodes
};

/// The place of a node, where there is such a file and offset.
pub fn place(file: usize, offset: usize) -> Option<usize> {
    let &count = COUNTS.get(file)?;
    (offset < count).then(|| FIRST[file] + offset)
}

/// File and offset of a place.
pub fn node(place: usize) -> (usize, usize) {
    NODES[place]
}

/// The places of a file from an offset on; none where there is no such file or offset.
pub fn rest(file: usize, offset: usize) -> Range<usize> {
    match place(file, offset) {
        Some(start) => start..FIRST[file] + COUNTS[file],
        None => 0..0,
    }
}

#[cfg(test)]
mod tests {
    use super::{node, place, rest, COUNTS, FILES, PLACES};

    #[test]
    fn places_number_the_nodes_file_by_file() {
        let nodes: Vec<(usize, usize)> = (0..FILES)
            .flat_map(|file| (0..COUNTS[file]).map(move |offset| (file, offset)))
            .collect();
        assert_eq!(nodes.len(), PLACES);
        for (number, &(file, offset)) in nodes.iter().enumerate() {
            assert_eq!(place(file, offset), Some(number));
            assert_eq!(node(number), (file, offset));
            let in_file = nodes.iter().filter(|&&(f, o)| f == file && o >= offset).count();
            assert_eq!(rest(file, offset), number..number + in_file);
        }
        for (file, count) in COUNTS.into_iter().enumerate() {
            assert_eq!(place(file, count), None);
            assert!(rest(file, count).is_empty());
        }
        assert_eq!(place(FILES, 0), None);
        assert_eq!(place(usize::MAX, usize::MAX), None);
    }
}
