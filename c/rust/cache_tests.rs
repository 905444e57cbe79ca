//! The cache's wrapper against the library.
use crate::cache::*;
use std::sync::atomic::{AtomicBool, Ordering};

/// Of one part, in which ages don't count.
fn config(items: u32, spare: u32) -> Config {
    Config { spare, hot_age: None, warm_age: None, ..Config::new(items, 2, 16, 40) }
}

fn one(config: &Config) -> (Part, Vec<Reader>) {
    let Opened { cache, readers } = open(config).unwrap();
    (cache.into_parts().remove(0), readers)
}

const DONE: Result<Put, PutRefusal> = Ok(Put { evicted: false });

#[test]
fn faults_are_told() {
    let fault = |config| open(&config).err();
    let sound = config(4, 2);
    assert_eq!(fault(Config { key_bytes: 1025, ..sound }), Some(OpenFault::KeyBytes));
    assert_eq!(fault(Config { value_bytes: 1_048_577, ..sound }), Some(OpenFault::ValueBytes));
    assert_eq!(fault(Config { items: 0, ..sound }), Some(OpenFault::Items));
    assert_eq!(fault(Config { items: 128_000_001, ..sound }), Some(OpenFault::Items));
    assert_eq!(fault(Config { spare: 127_999_997, ..sound }), Some(OpenFault::Spare));
    assert_eq!(fault(Config { spare: 0, ..sound }), Some(OpenFault::Spare));
    assert_eq!(fault(Config { hot: 61, ..sound }), Some(OpenFault::Shares));
    assert_eq!(fault(Config { parts: 5, ..sound }), Some(OpenFault::Parts));
    assert_eq!(fault(Config { parts: 257, ..config(300, 2) }), Some(OpenFault::Parts));
    assert_eq!(fault(Config { readers: 65, ..sound }), Some(OpenFault::Readers));
    assert_eq!(fault(Config { ring: 0, ..sound }), Some(OpenFault::Ring));
    assert_eq!((fault(sound), Config { ring: 0, ..sound }.part_of(b"key")), (None, None));
}

#[test]
fn the_configuration_is_memcacheds() {
    let c = Config::new(6401, 3, 10, 20);
    assert_eq!((c.items, c.readers, c.key_bytes, c.value_bytes, c.spare), (6401, 3, 10, 20, 4));
    assert_eq!((c.hot, c.warm, c.hot_age, c.warm_age), (20, 40, Some(20), Some(200)));
    assert_eq!((c.seed, c.temporary, c.parts, c.ring, c.looks), ((0, 0), 0, 1, 8192, 1000));
}

#[test]
fn all_parts_and_readers_are_there() {
    let Opened { cache, readers } = open(&Config { parts: 3, ..config(9, 1) }).unwrap();
    assert_eq!((cache.parts().map(|mut part| part.chunks()).collect::<Vec<_>>(), readers.len()), (vec![4; 3], 2));
    assert_eq!(cache.into_parts().len(), 3);
    let Opened { cache, readers } = open(&Config { parts: 256, ring: 1, ..Config::new(256, 64, 8, 8) }).unwrap();
    assert_eq!((cache.into_parts().len(), readers.len()), (256, 64));
}

#[test]
fn what_is_put_is_got() {
    let (mut part, readers) = one(&config(4, 4));
    assert_eq!(part.put(b"key", b"a value of more than 16 bytes", 7, 9, 1), DONE);
    let mut read = [b'-'; 40];
    assert_eq!(readers[0].get_into(b"key", &mut read, 8), Some(Got { flags: 7, length: 29 }));
    assert_eq!(&read[..31], b"a value of more than 16 bytes--");
    assert_eq!(readers[0].get_into(b"key", &mut read[..0], 8), Some(Got { flags: 7, length: 29 }));
    let found = readers[0].get(b"key", 8).unwrap();
    assert_eq!((found.flags(), found.len(), found.is_empty()), (7, 29, false));
    assert_eq!((found.to_vec(), found.read(&mut read[..7])), (read[..29].to_vec(), 7));
    assert_eq!((found.read_from(2, &mut read), &read[..14]), (13, &b"than 16 bytesr"[..]));
    assert_eq!((found.read_from(4, &mut read), found.read_from(u32::MAX, &mut read)), (0, 0));
    assert!(readers[0].get(b"key", 9).is_none() && readers[0].get(b"kex", 8).is_none());
    assert!(readers[0].get_into(b"a key of 17 bytes", &mut read, 8).is_none());
    assert!(readers[0].get(b"a key of 17 bytes", 8).is_none());
    assert_eq!(readers[0].counts(), Counts { hits: 3, misses: 2, dropped: 0 });
    assert_eq!(readers[1].counts(), Counts { hits: 0, misses: 0, dropped: 0 });
}

#[test]
fn empty_keys_and_values_are_some() {
    let (mut part, readers) = one(&config(4, 4));
    assert_eq!((part.put(b"", b"", 1, 0, 1), part.put(b"\0", b"\0", 2, 0, 1)), (DONE, DONE));
    let (empty, zero) = (readers[0].get(b"", 1).unwrap(), readers[0].get(b"\0", 1).unwrap());
    assert_eq!((empty.flags(), empty.is_empty(), empty.to_vec()), (1, true, vec![]));
    assert_eq!((zero.flags(), zero.len(), zero.to_vec()), (2, 1, vec![0]));
    assert!(readers[0].get(b"\0\0", 1).is_none());
}

#[test]
fn a_guard_keeps_its_value() {
    let (mut part, readers) = one(&config(1, 1));
    assert_eq!(part.put(b"key", b"old", 1, 0, 1), DONE);
    let old = readers[0].get(b"key", 1).unwrap();
    assert_eq!(part.put(b"key", b"new", 2, 0, 1), DONE);
    let new = readers[1].get(b"key", 1).unwrap();
    assert_eq!(part.put(b"other", b"", 0, 0, 1), Err(PutRefusal::NoRoom { evicted: true }));
    assert_eq!((part.remove(b"key", 1), readers[0].get(b"key", 1).is_none()), (false, true));
    assert_eq!(part.add(b"other", b"", 0, 0, 1), Err(PutRefusal::NoRoom { evicted: false }));
    assert_eq!((old.to_vec(), new.to_vec(), old.flags(), new.flags()), (b"old".to_vec(), b"new".to_vec(), 1, 2));
    drop(old);
    assert_eq!((part.put(b"other", b"", 0, 0, 1), new.to_vec()), (DONE, b"new".to_vec()));
}

#[test]
fn values_of_many_lengths_are_read_in_pieces() {
    let (mut part, readers) = one(&Config { value_bytes: 300, ..config(4, 4) });
    for length in [0, 1, 8, 63, 64, 65, 127, 128, 129, 299, 300] {
        let value: Vec<u8> = (0..length).map(|byte| (3 * byte + byte / 7) as u8).collect();
        assert_eq!(part.put(b"key", &value, length as u32, 0, 1), DONE);
        for room in [0, 1, 7, 63, 64, 65, 128, 130, 300, 310] {
            let (mut read, count) = (vec![b'-'; room], room.min(length));
            let told = readers[0].get_into(b"key", &mut read, 1);
            assert_eq!(told, Some(Got { flags: length as u32, length }));
            assert!(read[..count] == value[..count] && read[count..].iter().all(|byte| *byte == b'-'));
        }
        let found = readers[0].get(b"key", 1).unwrap();
        for from in 0..length.div_ceil(8) {
            let mut read = vec![b'-'; 310];
            assert_eq!(found.read_from(from as u32, &mut read), length - 8 * from);
            assert!(read.starts_with(&value[8 * from..]) && read[length - 8 * from..].iter().all(|byte| *byte == b'-'));
        }
        assert_eq!((found.to_vec(), part.look(b"key", 1).unwrap().value), (value.clone(), value.clone()));
        let entries: Vec<Entry> = (0..8).filter_map(|number| part.each(number, 1)).collect();
        assert_eq!(entries, [Entry { key: b"key".to_vec(), value, flags: length as u32, expires: 0 }]);
    }
}

#[test]
fn a_reader_has_63_guards_and_gives_them_back() {
    let (mut part, readers) = one(&config(1, 1));
    part.put(b"key", b"value", 1, 0, 1).unwrap();
    for _ in 0..3 {
        let mut guards: Vec<Guard> = (0..63).map(|_| readers[0].get(b"key", 1).unwrap()).collect();
        assert!(guards.iter().all(|guard| guard.to_vec() == b"value"));
        assert_eq!(readers[0].get_into(b"key", &mut [0; 65], 1), Some(Got { flags: 1, length: 5 }));
        drop(guards.remove(17));
        assert_eq!(readers[0].get(b"key", 1).unwrap().to_vec(), b"value");
    }
    let one_more = std::panic::catch_unwind(|| {
        let Opened { cache, readers } = open(&config(1, 1)).unwrap();
        cache.put(b"key", b"value", 1, 0, 1).unwrap();
        let guards: Vec<_> = (0..64).map(|_| readers[0].get(b"key", 1)).collect();
        guards.len()
    });
    assert!(one_more.is_err());
}

#[test]
fn puts_that_look_first() {
    let (mut part, _readers) = one(&config(4, 4));
    assert_eq!(part.replace(b"k", b"v", 1, 0, 1), Err(PutRefusal::Nothing));
    assert_eq!(part.update(b"k", b"v", 1), Err(PutRefusal::Nothing));
    assert_eq!(part.touch(b"k", 9, 1), Err(PutRefusal::Nothing));
    assert_eq!((part.add(b"k", b"added", 1, 5, 1), part.add(b"k", b"again", 2, 5, 4)), (DONE, Err(PutRefusal::Has)));
    assert_eq!(part.look(b"k", 4), Some(Looked { value: b"added".to_vec(), flags: 1, expires: 5 }));
    assert_eq!((part.add(b"k", b"anew", 3, 6, 5), part.replace(b"k", b"other", 4, 7, 5)), (DONE, DONE));
    assert_eq!((part.update(b"k", b"up", 6), part.touch(b"k", 8, 6)), (DONE, DONE));
    assert_eq!(part.look(b"k", 7), Some(Looked { value: b"up".to_vec(), flags: 4, expires: 8 }));
    assert_eq!((part.look(b"k", 8), part.look(b"l", 7), part.look(&[0; 17], 7)), (None, None, None));
    assert_eq!((part.remove(b"k", 8), part.remove(b"k", 7)), (false, false));
    assert_eq!(part.put(&[0; 17], b"", 0, 0, 1), Err(PutRefusal::KeyBytes));
    assert_eq!(part.put(b"k", &[0; 41], 0, 0, 1), Err(PutRefusal::ValueBytes));
    assert_eq!((part.put(b"k", &[0; 40], 0, 0, 1), part.remove(b"k", 1)), (DONE, true));
}

#[test]
fn keys_are_of_their_parts() {
    let config = Config { parts: 4, seed: (1, 2), ..config(400, 2) };
    let Opened { cache, readers } = open(&config).unwrap();
    let mut parts = cache.into_parts();
    let mut of_part = [0; 4];
    for number in 0..100u32 {
        let key = number.to_le_bytes();
        let own = config.part_of(&key).unwrap();
        of_part[own as usize] += 1;
        for (part, other) in parts.iter_mut().zip(0..).filter(|(_, other)| *other != own) {
            assert_eq!((part.put(&key, b"", 0, 0, 1), other < 4), (Err(PutRefusal::OtherPart), true));
        }
        assert_eq!(parts[own as usize].put(&key, &key, number, 0, 1), DONE);
        assert_eq!(readers[0].get(&key, 1).unwrap().to_vec(), key);
    }
    assert!(of_part.iter().all(|keys| *keys > 0) && config.part_of(&[0; 17]).is_none());
    assert_eq!(parts.iter_mut().map(Part::chunks).sum::<u32>(), 408);
}

#[test]
fn each_item_is_told_once() {
    let (mut part, readers) = one(&config(4, 2));
    for (number, key) in [&b""[..], b"a", b"a\0", b"sixteen bytes ok"].into_iter().enumerate() {
        assert_eq!(part.put(key, &key[..key.len() / 2], number as u32, 10 * number as u64, 1), DONE);
    }
    let entries = |part: &mut Part, now| (0..8).filter_map(|number| part.each(number, now)).collect::<Vec<_>>();
    let mut all = entries(&mut part, 9);
    all.sort_by_key(|entry| entry.flags);
    assert_eq!(
        all.iter().map(|entry| &entry.key[..]).collect::<Vec<_>>(),
        [&b""[..], b"a", b"a\0", b"sixteen bytes ok"]
    );
    let last = Entry { key: b"sixteen bytes ok".to_vec(), value: b"sixteen ".to_vec(), flags: 3, expires: 30 };
    assert_eq!((all.pop(), entries(&mut part, 10).len(), entries(&mut part, 30).len()), (Some(last), 3, 1));
    part.tend(10);
    assert_eq!((entries(&mut part, 9).len(), part.stats().crawler_reclaimed, part.chunks()), (3, 1, 6));
    part.clear();
    assert!(entries(&mut part, 9).is_empty() && readers[0].get(b"", 9).is_none());
    let moved = Stats { moves_to_cold: 3, ..Stats::default() };
    assert_eq!(part.stats(), Stats { crawler_reclaimed: 1, expired_unfetched: 1, ..moved });
}

#[test]
fn a_full_part_evicts() {
    let (mut part, readers) = one(&config(2, 1));
    assert_eq!((part.put(b"a", b"", 0, 0, 1), part.put(b"b", b"", 0, 0, 2)), (DONE, DONE));
    assert_eq!(part.put(b"c", b"", 0, 0, 3), Ok(Put { evicted: true }));
    assert!(readers[0].get(b"a", 3).is_none() && readers[0].get(b"b", 3).is_some());
    assert_eq!((part.stats().evicted, part.stats().evicted_unfetched), (1, 1));
}

#[test]
fn calls_of_a_cache_are_made_in_the_keys_part() {
    let config = Config { parts: 4, ..config(400, 2) };
    let Opened { cache, readers } = open(&config).unwrap();
    for number in 0..100u32 {
        let (key, looked) = (number.to_le_bytes(), |value: &[u8], flags, expires| {
            assert_eq!(cache.look(&number.to_le_bytes(), 7), Some(Looked { value: value.to_vec(), flags, expires }));
        });
        assert_eq!(cache.replace(&key, b"", 1, 0, 1), Err(PutRefusal::Nothing));
        assert_eq!((cache.put(&key, b"put", 1, 8, 1), cache.add(&key, b"", 0, 0, 7)), (DONE, Err(PutRefusal::Has)));
        looked(b"put", 1, 8);
        assert_eq!((cache.replace(&key, b"replaced", 2, 9, 7), cache.update(&key, b"new", 7)), (DONE, DONE));
        looked(b"new", 2, 9);
        assert_eq!((cache.touch(&key, 10, 7), cache.part(&key).unwrap().chunks()), (DONE, 102));
        looked(b"new", 2, 10);
        assert_eq!(readers[0].get(&key, 9).unwrap().to_vec(), b"new");
        assert_eq!(
            (cache.remove(&[key, key].concat(), 9), number % 2 == 0 && cache.remove(&key, 9)),
            (false, number % 2 == 0)
        );
    }
    let long = [0; 17];
    assert_eq!((cache.part(&long).is_none(), cache.look(&long, 1), cache.remove(&long, 1)), (true, None, false));
    assert_eq!(
        (cache.put(&long, b"", 0, 0, 1), cache.touch(&long, 0, 1)),
        (Err(PutRefusal::KeyBytes), Err(PutRefusal::KeyBytes))
    );
    assert_eq!(cache.stats().number_hot + cache.stats().number_warm + cache.stats().number_cold, 50);
    cache.tend(10);
    assert_eq!(cache.stats().crawler_reclaimed, 50);
    assert_eq!(cache.put(b"key", b"", 0, 0, 10), DONE);
    cache.clear();
    assert!(readers[0].get(b"key", 10).is_none() && cache.stats().evicted == 0);
}

#[test]
fn a_thread_that_panics_leaves_the_cache() {
    let Opened { cache, readers } = open(&config(4, 4)).unwrap();
    let panics = std::thread::scope(|scope| {
        let taken = scope.spawn(|| {
            let mut part = cache.part(b"key").unwrap();
            part.put(b"key", b"value", 1, 0, 1).unwrap();
            panic!("with the mutex");
        });
        taken.join().is_err()
    });
    assert!(panics && cache.look(b"key", 1).is_some() && readers[0].get(b"key", 1).is_some());
    assert_eq!(cache.into_parts()[0].chunks(), 8);
}

#[test]
fn threads_get_while_one_puts() {
    const KEYS: u32 = 40;
    let config = Config { parts: 2, ..config(4 * KEYS, 64) };
    let Opened { cache, readers } = open(&config).unwrap();
    let value = |key: u32, turn: u32| [key, turn, !key, !turn].map(u32::to_le_bytes).concat();
    let put = |key: u32, turn: u32| cache.put(&key.to_le_bytes(), &value(key, turn), turn, 0, u64::from(turn)).is_ok();
    (0..KEYS).for_each(|key| assert!(put(key, 0)));
    let done = AtomicBool::new(false);
    std::thread::scope(|scope| {
        for reader in readers {
            let (done, value) = (&done, &value);
            scope.spawn(move || {
                let mut gets = 0;
                while gets < 1000 || !done.load(Ordering::SeqCst) {
                    let key: u32 = gets % KEYS;
                    let found = reader.get(&key.to_le_bytes(), 1).expect("each key is always there");
                    assert_eq!(found.to_vec(), value(key, found.flags()));
                    gets += 1;
                }
                let counts = reader.counts();
                assert_eq!((counts.hits, counts.misses), (u64::from(gets), 0));
            });
        }
        for turn in 1..200 {
            // where each chunk without an item is held, the key keeps what it had
            let _puts = (0..KEYS).filter(|key| put(*key, turn)).count();
        }
        done.store(true, Ordering::SeqCst);
    });
}
