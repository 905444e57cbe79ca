//! The wrapper against the library.
use super::*;

const CONFIG: Config = Config { workers: 2, capacity: 1, refs_limit: 4, first_generation: 1, words: 2 };
const CLASS: ClassConfig = ClassConfig { chunks: 2, hot: 0, warm: 1 };

fn parts(classes: &[ClassConfig]) -> Parts {
    open(&CONFIG, classes).unwrap().parts()
}

#[test]
fn the_library_is_of_this_version() {
    assert_eq!(version(), VERSION);
}

#[test]
fn faults_are_told() {
    assert_eq!(open(&Config { workers: 0, ..CONFIG }, &[CLASS]).err(), Some(OpenFault::Workers));
    assert_eq!(open(&Config { refs_limit: 1, ..CONFIG }, &[CLASS]).err(), Some(OpenFault::RefsLimit));
    assert_eq!(open(&CONFIG, &[]).err(), Some(OpenFault::Classes));
    assert_eq!(open(&CONFIG, &[ClassConfig { chunks: 0, ..CLASS }]).err(), Some(OpenFault::Chunks));
}

#[test]
fn a_part_is_taken_once() {
    let mut store = open(&CONFIG, &[CLASS, CLASS]).unwrap();
    let mut second = store.take_book(1).unwrap();
    assert_eq!(second.link(1, 1).unwrap().chunk, 2);
    assert!(store.take_book(1).is_none() && store.take_book(2).is_none());
    let _lane = store.take_lane(0).unwrap();
    let _worker = store.take_worker(1).unwrap();
    assert!(store.take_worker(1).is_none() && store.take_lane(2).is_none());
    let rest = store.parts();
    assert_eq!((rest.workers.len(), rest.books.len(), rest.lanes.len()), (1, 1, 1));
}

#[test]
fn a_hit_in_cold_is_queued_applied_and_settled() {
    let Parts { mut workers, mut books, mut lanes } = parts(&[CLASS, CLASS]);
    let [book, other] = &mut books[..] else { panic!() };
    let lane = &mut lanes[1];
    let item = book.link(7, 1).unwrap();
    assert_eq!(book.pull(Tail::Hot), Pulled::Cold(Labelled { item, label: 7 }));
    assert_eq!(workers[1].hit(item, 2), Ok((Touch::First, 7)));
    assert_eq!(workers[1].hit(item, 3), Ok((Touch::Queued, 7)));
    assert_eq!((lane.class(), other.apply_run(lane, 4, 9)), (Some(0), Err(RunRefusal::OtherClass)));
    assert_eq!(book.apply_run(lane, 4, 9), Ok(1));
    let seen = book.see(item.chunk).unwrap();
    let marks = Marks { refs: 1, segment: Place::Warm, linked: true, fetched: true, active: false };
    assert_eq!(seen, Seen { item, marks, time: 4, label: 7 });
    assert_eq!((book.moves(1), book.moves(2), book.chunks(Place::Warm)), (Some(1), None, vec![item.chunk]));
    assert_eq!((lane.rest(), book.limits()), (Rest::Open, (0, 1)));
    let worker = workers.pop().unwrap();
    let counts = worker.counts();
    assert!(lane.close(worker).is_ok());
    assert_eq!(lane.rest(), Rest::Settled { counts, applied: 1 });
    assert_eq!(book.unlink(item), Ok(Ended::Freed(7)));
    assert_eq!(book.unlink(item), Err(UnlinkRefusal::NotLinked));
}

#[test]
fn a_hold_is_given_back_with_its_value() {
    let Parts { workers, mut books, .. } = parts(&[CLASS]);
    let item = books[0].link_temp(9, 1).unwrap();
    let holds: Vec<Hold> = (0..3).map(|_| workers[0].get(item).unwrap()).collect();
    assert_eq!(workers[1].get(item).err(), Some(GetRefusal::RefsFull));
    assert_eq!((holds[2].label(), holds[1].touch(2)), (9, Touch::First));
    assert_eq!((holds[0].is_marked(), holds[0].touch(3), holds[0].is_marked()), (false, Touch::Marked, true));
    let marks = Marks { refs: 4, segment: Place::Temp, linked: true, fetched: true, active: true };
    assert_eq!((holds[2].marks(), holds[1].time()), (marks, 3));
    assert_eq!(books[0].unlink(item), Ok(Ended::Deferred(9)));
    assert_eq!((books[0].sweep(), holds[0].label()), (0, 9));
    drop(holds);
    assert_eq!((&*books[0].sweep_told(), books[0].sweep()), (&[item.chunk][..], 0));
    assert_eq!(workers[1].get(item).err(), Some(GetRefusal::Stale));
}

#[test]
fn words_are_told() {
    let Parts { workers, mut books, .. } = parts(&[CLASS]);
    let item = books[0].link_words(1, &[10, 20], 1).unwrap();
    let temp = books[0].link_temp_words(2, &[30], 1).unwrap();
    assert_eq!(books[0].link_words(3, &[1, 2, 3], 1), Err(LinkRefusal::TooManyWords));
    assert_eq!(books[0].link(3, 1), Err(LinkRefusal::NoFreeChunk));
    let (hold, other) = (workers[0].get(item).unwrap(), workers[0].get(temp).unwrap());
    assert_eq!((&*hold.words(0), &*hold.words(1), &*other.words(0)), (&[10, 20][..], &[20][..], &[30, 0][..]));
    assert!(hold.words(2).is_empty() && hold.words(u32::MAX).is_empty());
}

#[test]
fn many_words_are_told_in_turn() {
    let many = MOST_WORDS as u64 + 3;
    let words: Vec<u64> = (100..100 + many).collect();
    let mut store = open(&Config { words: many as u32, ..CONFIG }, &[CLASS]).unwrap();
    let (worker, mut book) = (store.take_worker(0).unwrap(), store.take_book(0).unwrap());
    let hold = worker.get(book.link_words(1, &words, 1).unwrap()).unwrap();
    for first in 0..words.len() {
        let last = words.len().min(first + MOST_WORDS);
        assert_eq!(*hold.words(first as u32), words[first..last]);
    }
    assert!(hold.words(many as u32).is_empty());
}

#[test]
fn a_list_is_looked_at_and_walked() {
    let Parts { mut books, .. } = parts(&[ClassConfig { chunks: 3, hot: 3, warm: 3 }]);
    let items: Vec<ItemId> = (0..3).map(|label| books[0].link(label, label).unwrap()).collect();
    let last = books[0].look(Place::Hot, None).unwrap().unwrap();
    assert_eq!((last.item, last.label, last.time), (items[0], 0, 0));
    let before = books[0].look(Place::Hot, Some(last.item.chunk)).unwrap().unwrap();
    assert_eq!((before.item, before.label), (items[1], 1));
    assert_eq!(books[0].look(Place::Hot, Some(items[2].chunk)), Ok(None));
    assert_eq!(books[0].look(Place::Warm, Some(items[2].chunk)), Err(NotThere));
    assert_eq!(books[0].look(Place::Warm, Some(u32::MAX)), Err(NotThere));
    let walked = books[0].walk(Place::Hot, Some(items[1].chunk)).unwrap();
    assert_eq!((&*walked.chunks, walked.next), (&[items[1].chunk, items[0].chunk][..], None));
    assert_eq!(books[0].walk(Place::Cold, Some(items[0].chunk)), Err(NotThere));
    assert_eq!(books[0].walk(Place::Hot, Some(u32::MAX)), Err(NotThere));
    assert_eq!((books[0].walk(Place::Cold, None).unwrap().chunks.len(), books[0].chunks(Place::Cold)), (0, vec![]));
    let first = Labelled { item: items[0], label: 0 };
    assert_eq!(
        (books[0].pull(Tail::Hot), books[0].pull_past(Tail::Hot, 2)),
        (Pulled::Stay(first), Pulled::Cold(first))
    );
    assert_eq!(books[0].pull_past(Tail::Hot, u32::MAX), Pulled::Stay(Labelled { item: items[1], label: 1 }));
    assert_eq!((books[0].pull(Tail::Evict), books[0].pull(Tail::Evict)), (Pulled::Freed(first), Pulled::Empty));
}

/// As many as one call tells, and more.
const MANY: [usize; 4] = [MOST_CHUNKS, MOST_CHUNKS + 1, 2 * MOST_CHUNKS, 2 * MOST_CHUNKS + 6];

/// A store with one class, and so many items in HOT: their labels are 0, 1 and so on.
fn many_items(many: usize) -> (Parts, Vec<ItemId>) {
    let class = ClassConfig { chunks: many as u32, hot: 0, warm: 0 };
    let mut parts = open(&Config { capacity: 128, ..CONFIG }, &[class]).unwrap().parts();
    let items = (0..many).map(|label| parts.books[0].link(label as u64, 1).unwrap()).collect();
    (parts, items)
}

#[test]
fn a_long_list_is_told_in_turn() {
    for many in MANY {
        let (Parts { mut books, .. }, items) = many_items(many);
        let chunks: Vec<u32> = items.iter().rev().map(|item| item.chunk).collect();
        let front = books[0].walk(Place::Hot, None).unwrap();
        assert_eq!((&*front.chunks, front.next), (&chunks[..MOST_CHUNKS], chunks.get(MOST_CHUNKS).copied()));
        assert_eq!((books[0].chunks(Place::Hot), books[0].size(Place::Hot)), (chunks, many as u32));
    }
}

#[test]
fn a_run_stops_where_it_told_as_many_chunks_as_it_may() {
    for many in MANY {
        let (Parts { workers, mut books, mut lanes }, items) = many_items(many);
        for (item, label) in items.iter().zip(0..) {
            books[0].pull(Tail::Hot);
            assert_eq!(workers[0].hit(*item, 2), Ok((Touch::First, label)));
            assert_eq!(workers[0].hit(*item, 3), Ok((Touch::Queued, label)));
            assert_eq!(books[0].unlink(*item), Ok(Ended::Deferred(label)));
        }
        for freed in items.chunks(MOST_CHUNKS) {
            let ran = books[0].apply_run_told(&mut lanes[0], 4, 100).unwrap();
            assert_eq!((ran.applied as usize, ran.freed.len()), (freed.len(), freed.len()));
            assert!(freed.iter().zip(&*ran.freed).all(|(item, chunk)| item.chunk == *chunk));
        }
        assert_eq!(books[0].apply_run(&mut lanes[0], 4, 100), Ok(0));
    }
}

#[test]
fn a_sweep_stops_where_it_told_as_many_chunks_as_it_may() {
    for many in MANY {
        let (Parts { workers, mut books, .. }, items) = many_items(many);
        let mut holds: Vec<Hold> = vec![];
        for (number, item) in items.iter().enumerate() {
            holds.push(workers[number / HOLDS as usize].get(*item).unwrap());
            assert!(matches!(books[0].unlink(*item), Ok(Ended::Deferred(_))));
        }
        assert!(books[0].sweep_told().is_empty());
        drop(holds);
        let mut freed: Vec<u32> = vec![];
        while freed.len() < many {
            let told = books[0].sweep_told();
            assert_eq!(told.len(), (many - freed.len()).min(MOST_CHUNKS));
            freed.extend_from_slice(&told);
        }
        assert_eq!((books[0].sweep(), books[0].size(Place::Dying)), (0, 0));
        freed.sort();
        assert_eq!(freed, (0..many as u32).collect::<Vec<_>>());
    }
}

#[test]
fn a_run_tells_what_came_free() {
    let Parts { mut workers, mut books, mut lanes } = parts(&[CLASS]);
    let item = books[0].link(5, 1).unwrap();
    books[0].pull(Tail::Hot);
    workers[0].hit(item, 2).unwrap();
    assert_eq!(workers[0].hit(item, 3), Ok((Touch::Queued, 5)));
    assert_eq!(books[0].unlink(item), Ok(Ended::Deferred(5)));
    drop(workers.remove(0));
    assert_eq!(lanes[0].rest(), Rest::Gone);
    let ran = books[0].apply_run_told(&mut lanes[0], 4, 9).unwrap();
    assert_eq!((ran.applied, &*ran.freed), (1, &[item.chunk][..]));
    assert_eq!(books[0].apply_run_told(&mut lanes[0], 4, 9).unwrap().applied, 0);
    assert_eq!((lanes[0].rest(), books[0].see(item.chunk).unwrap().label), (Rest::Gone, 5));
}

#[test]
fn a_worker_comes_back_where_it_is_not_closed() {
    let Parts { mut workers, mut books, mut lanes } = parts(&[CLASS]);
    let mut other = parts(&[CLASS]);
    assert_eq!(other.books[0].apply_run(&mut lanes[0], 1, 1), Err(RunRefusal::OtherStore));
    assert_eq!(other.books[0].apply_run_told(&mut lanes[0], 1, 1), Err(RunRefusal::OtherStore));
    let item = books[0].link(1, 1).unwrap();
    std::mem::forget(workers[1].get(item).unwrap());
    let Err(Unclosed::OtherStore(worker)) = other.lanes[1].close(workers.pop().unwrap()) else { panic!() };
    let Err(Unclosed::OtherWorker(worker)) = lanes[0].close(worker) else { panic!() };
    let Err(Unclosed::HoldsOut(worker)) = lanes[1].close(worker) else { panic!() };
    drop(worker);
    assert_eq!(books[0].see(item.chunk).unwrap().marks.refs, 1);
}
