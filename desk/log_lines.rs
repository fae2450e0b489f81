// The items and the events of a log, each in one line.

use crate::numbers::Item;
use crate::plain_judge::{writes_of, Event, Log};

fn words(n: usize, item: &Item) -> String {
    let words: Vec<String> = item[..n].iter().map(u32::to_string).collect();
    words.join(" ")
}

// The initial item and then the writes in order, such as 0 | 1 | 2.
pub fn items_line(log: &Log) -> String {
    let items = writes_of(log);
    let items: Vec<String> = items.iter().map(|item| words(log.n, item)).collect();
    items.join(" | ")
}

// Such as CW 1, RW, CR, RR 1.
pub fn events_line(log: &Log) -> String {
    let event = |event: &Event| match event {
        Event::WriteCalled(item) => format!("CW {}", words(log.n, item)),
        Event::WriteReturned => "RW".to_string(),
        Event::ReadCalled => "CR".to_string(),
        Event::ReadReturned(item) => format!("RR {}", words(log.n, item)),
    };
    let events: Vec<String> = log.events.iter().map(event).collect();
    events.join(", ")
}
