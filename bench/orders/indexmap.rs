// The same look-ups and edits as `bench_machines orders`, in an IndexMap: `indexmap WORK STORIES CALLS`.
use indexmap::IndexMap;
use std::hint::black_box;

// A story with its ID alone, as crates/mos_values has it.
#[derive(Clone)]
struct Story {
    id: Vec<u16>,
    slug: Option<Vec<u16>>,
    num: Option<Vec<u16>>,
    metadata: Vec<Vec<u16>>,
    others: Vec<Vec<u16>>,
    items: Vec<Vec<u16>>,
}

fn id_of(number: u32) -> Vec<u16> {
    let mut rest = number;
    (0..5)
        .map(|_| {
            let digit = 48 + (rest % 10) as u16;
            rest /= 10;
            digit
        })
        .collect()
}

fn story_of(number: u32) -> Story {
    Story { id: id_of(number), slug: None, num: None, metadata: vec![], others: vec![], items: vec![] }
}

type Order = IndexMap<Vec<u16>, Story>;

// MOVE of a story before a target, or to the end.
fn shift(order: &mut Order, source: &[u16], target: Option<&[u16]>) {
    let from = order.get_index_of(source).unwrap();
    let to = match target {
        None => order.len() - 1,
        Some(id) => match order.get_index_of(id).unwrap() {
            place if from < place => place - 1,
            place => place,
        },
    };
    order.move_index(from, to);
}

fn exchange(order: &mut Order, first: &[u16], second: &[u16]) {
    let a = order.get_index_of(first).unwrap();
    let b = order.get_index_of(second).unwrap();
    order.swap_indices(a, b);
}

fn insert(order: &mut Order, story: &Story, target: &[u16]) {
    assert!(order.get_index_of(&story.id).is_none());
    let at = order.get_index_of(target).unwrap();
    let last = order.len();
    order.insert(story.id.clone(), story.clone());
    order.move_index(last, at);
}

fn main() {
    let words: Vec<String> = std::env::args().collect();
    let work = words[1].as_str();
    let count: u32 = words[2].parse().expect("STORIES is a number");
    let calls: u64 = words[3].parse().expect("CALLS is a number");
    let mut order: Order = (0..count).map(|number| (id_of(number), story_of(number))).collect();
    let (zero, middle, last) = (id_of(0), id_of(count / 2), id_of(count - 1));
    let new = story_of(count);
    let ids: Vec<Vec<u16>> = (0..count).map(id_of).collect();
    let mut sum: u64 = 0;
    for call in 0..calls {
        match (work, call % 2) {
            ("find", _) => sum += order.get_index_of(black_box(ids[(call % u64::from(count)) as usize].as_slice())).unwrap() as u64,
            ("move", 0) => shift(&mut order, black_box(&last), Some(&zero)),
            ("move", _) => shift(&mut order, black_box(&last), None),
            ("swap", _) => exchange(&mut order, black_box(&zero), &last),
            (_, 0) => insert(&mut order, black_box(&new), &middle),
            (_, _) => drop(order.shift_remove(black_box(new.id.as_slice()))),
        }
    }
    let units: usize = order.values().map(|story| 34 + story.id.len() + story.items.len()).sum();
    let rest = order.values().map(|story| story.slug.is_some() as usize + story.num.is_some() as usize + story.metadata.len() + story.others.len()).sum::<usize>();
    println!("{sum} {}", 48 + units + rest);
}
