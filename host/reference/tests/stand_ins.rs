//! The containers that stand in for those of the reference.

use resolvo::{DenseIndex, IndexedSet, Mapping, VersionSetId};

fn id(index: usize) -> VersionSetId {
    VersionSetId::from_index(index)
}

#[test]
fn mapping_keeps_what_was_inserted_last() {
    let mut mapping = Mapping::new();
    assert_eq!(mapping.insert(id(3), 'a'), None);
    assert_eq!(mapping.insert(id(3), 'b'), Some('a'));
    assert_eq!(*mapping.get_or_insert_with(id(1), || 'c'), 'c');
    assert_eq!(*mapping.get_or_insert_with(id(1), || 'd'), 'c');
    assert_eq!((mapping.get(id(0)), mapping.get(id(9))), (None, None));
    assert_eq!(mapping.max(), 3);
    assert_eq!(mapping.iter().collect::<Vec<_>>(), [(id(1), &'c'), (id(3), &'b')]);
}

#[test]
fn indexed_set_keeps_the_order_of_arrival() {
    let mut set = IndexedSet::default();
    assert!(set.insert(id(5)) && set.insert(id(2)) && !set.insert(id(5)));
    assert!(set.contains(id(2)) && !set.contains(id(3)) && !set.contains(id(70)));
    assert_eq!(set.iter().collect::<Vec<_>>(), [id(5), id(2)]);
}
