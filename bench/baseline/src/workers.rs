//! Work that threads share.

use std::thread;

/// Does the same with each item, side by side: what is made of them, in their order.
pub fn each<Item: Send, Made: Send>(
    items: impl Iterator<Item = Item>,
    work: impl Fn(Item) -> Made + Sync,
) -> Vec<Made> {
    let work = &work;
    thread::scope(|scope| {
        let workers: Vec<_> = items.map(|item| scope.spawn(move || work(item))).collect();
        let workers = workers.into_iter();
        workers
            .map(|worker| worker.join().expect("a worker returns"))
            .collect()
    })
}
