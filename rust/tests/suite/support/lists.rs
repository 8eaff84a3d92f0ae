//! Lists of numbers, all of them.

/// All lists of at most `longest` of these elements.
pub fn all_lists(elements: &[u16], longest: usize) -> Vec<Vec<u16>> {
    let mut lists = vec![Vec::new()];
    let mut done = 0;
    for _ in 0..longest {
        for at in std::mem::replace(&mut done, lists.len())..lists.len() {
            for &element in elements {
                let longer = [&lists[at][..], &[element]].concat();
                lists.push(longer);
            }
        }
    }
    lists
}
