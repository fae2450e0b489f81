// Counts what came among the compared files, and says whether that is enough.

use crate::numbers::Item;
use crate::plain::{self, MoveFile};
use crate::plain_judge::{self, Event, Log};
use crate::table::{number_of, MOST_ITEMS, MOST_MOVES, NAMES};

// The bars hold from so many files on.
const ENOUGH_FILES: usize = 2_000;

// Each answer that can be given, and each width of an accepted file, is to come once in so many files.
const ONCE_IN: usize = 50;

// What an accepted file may have, in how many files that is to come once, and how often it came.
type Class = (&'static str, usize, usize);

fn class(name: &'static str, once_in: usize, has: bool) -> Class {
    (name, once_in, usize::from(has))
}

fn has_leftovers(file: &MoveFile, of_writer: usize) -> bool {
    of_writer.div_ceil(file.n + 4) < file.items.len()
}

fn has_five_bytes(items: &[Item]) -> bool {
    items.iter().flatten().any(|&word| word >= 1 << 28)
}

fn classes_of_moves(bytes: &[u8]) -> Vec<Class> {
    let Ok(file) = plain::read(bytes) else {
        return Vec::new();
    };
    let of_writer = file.moves.iter().filter(|&&side| side == 0).count();
    let of_reader = file.moves.len() - of_writer;
    let both_open = of_writer % (file.n + 4) > 0 && of_reader % (file.n + 3) > 0;
    vec![
        class("leftover items", 20, has_leftovers(&file, of_writer)),
        class("255 items", 50, file.items.len() == MOST_ITEMS),
        class("a word of five bytes", 10, has_five_bytes(&file.items)),
        class("4,096 moves", 200, file.moves.len() == MOST_MOVES),
        class("five writes", 20, of_writer / (file.n + 4) >= 5),
        class("five reads", 20, of_reader / (file.n + 3) >= 5),
        class("both calls open at the end", 10, both_open),
    ]
}

fn has_equal_items(items: &[Item]) -> bool {
    (1..items.len()).any(|number| items[..number].contains(&items[number]))
}

fn reads_of(log: &Log) -> usize {
    let finished = |event: &&Event| matches!(event, Event::ReadReturned(_));
    log.events.iter().filter(finished).count()
}

fn classes_of_log(bytes: &[u8]) -> Vec<Class> {
    let Ok(log) = plain_judge::read(bytes) else {
        return Vec::new();
    };
    let (reads, writes) = (reads_of(&log), plain_judge::writes_of(&log));
    let equal = reads >= 5 && has_equal_items(&writes);
    let many = reads > 256 && writes.len() > 256;
    vec![
        class("five reads, and equal items", 10, equal),
        class("a word of five bytes", 10, has_five_bytes(&writes)),
        class("above 256 reads and 256 writes", 2_000, many),
        class("no write", 1_000, writes.len() == 1),
        class("no finished read", 100, reads == 0),
    ]
}

pub struct Tally {
    name: &'static str,
    numbers: &'static [usize],
    classes_of: fn(&[u8]) -> Vec<Class>,
    files: usize,
    answers: [usize; 12],
    widths: [usize; 9],
    classes: Vec<Class>,
}

impl Tally {
    pub fn of_moves() -> Tally {
        Tally::new(
            "move files",
            &[0, 1, 2, 3, 4, 5, 6, 7, 8, 10],
            classes_of_moves,
        )
    }

    pub fn of_logs() -> Tally {
        Tally::new("logs", &[0, 1, 2, 3, 4, 5, 6, 7, 9, 10, 11], classes_of_log)
    }

    fn new(
        name: &'static str,
        numbers: &'static [usize],
        classes_of: fn(&[u8]) -> Vec<Class>,
    ) -> Tally {
        Tally {
            name,
            numbers,
            classes_of,
            files: 0,
            answers: [0; 12],
            widths: [0; 9],
            classes: Vec::new(),
        }
    }

    pub fn add(&mut self, file: &[u8], answer: u64) {
        let number = number_of(answer) as usize;
        self.files += 1;
        self.answers[number] += 1;
        if number == 0 {
            self.widths[usize::from(file[0])] += 1;
            self.add_classes((self.classes_of)(file));
        }
    }

    fn add_classes(&mut self, classes: Vec<Class>) {
        if self.classes.is_empty() {
            self.classes = classes;
            return;
        }
        for (sum, class) in self.classes.iter_mut().zip(classes) {
            sum.2 += class.2;
        }
    }

    fn print_answers(&self) {
        for &number in self.numbers {
            println!("{number:2} {:8} {:7}", NAMES[number], self.answers[number]);
        }
    }

    fn print_classes(&self) {
        for (name, _, count) in &self.classes {
            println!("accepted, with {name}: {count}");
        }
    }

    pub fn print(&self) {
        println!("{} {}", self.files, self.name);
        self.print_answers();
        println!("accepted, of width 1 to 8: {:?}", &self.widths[1..]);
        self.print_classes();
    }

    // Fails where an answer, a width or a class comes too seldom.
    pub fn check_bars(&self) -> Result<(), String> {
        let answers = self
            .numbers
            .iter()
            .map(|&number| (NAMES[number], ONCE_IN, self.answers[number]));
        let widths = self.widths[1..]
            .iter()
            .map(|&count| ("some width", ONCE_IN, count));
        let mut all = answers.chain(widths).chain(self.classes.iter().copied());
        match all.find(|&(_, once_in, count)| count * once_in < self.files) {
            Some((what, _, count)) if self.files >= ENOUGH_FILES => {
                let (files, name) = (self.files, self.name);
                Err(format!("of {files} {name} only {count} have {what}"))
            }
            _ => Ok(()),
        }
    }
}
