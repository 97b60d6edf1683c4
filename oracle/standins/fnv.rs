//! Stand-in for fnv: the generator sorts whatever it takes out of this map, so the hash plays no part.

pub type FnvHashMap<K, V> = std::collections::HashMap<K, V>;
