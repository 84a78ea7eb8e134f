//! Counts of what a test tried, so that a test which tried nothing shows.

use std::fmt::{Display, Write};

/// Counts by sort and item, in the order in which they are first named.
#[derive(Clone, Debug)]
pub struct Tally {
    title: &'static str,
    tried: usize,
    sorts: Vec<Sort>,
}

#[derive(Clone, Debug)]
struct Sort {
    name: &'static str,
    items: Vec<Item>,
}

#[derive(Clone, Debug)]
struct Item {
    name: String,
    count: usize,
    due: bool,
}

impl Tally {
    pub fn new(title: &'static str) -> Tally {
        Tally {
            title,
            tried: 0,
            sorts: Vec::new(),
        }
    }

    /// Items that must occur.
    pub fn due<T: Display>(
        mut self,
        sort: &'static str,
        items: impl IntoIterator<Item = T>,
    ) -> Tally {
        for item in items {
            self.item(sort, item).due = true;
        }
        self
    }

    /// One more trial.
    pub fn tried(&mut self) {
        self.tried += 1;
    }

    /// One more of the item.
    pub fn count(&mut self, sort: &'static str, item: impl Display) {
        self.item(sort, item).count += 1;
    }

    /// Prints all counts at once, and fails where one that is due is below
    /// the least.
    pub fn finish(self, least: usize) {
        let mut lines = format!("{}: {} tried\n", self.title, self.tried);
        let mut missing = String::new();
        for Sort { name, items } in &self.sorts {
            let counts: Vec<String> = items
                .iter()
                .map(|item| format!("{}: {}", item.name, item.count))
                .collect();
            lines += &format!("  {name} | {}\n", counts.join(", "));
            for item in items.iter().filter(|item| item.due && item.count < least) {
                let _ = write!(missing, " [{name} {}: {}]", item.name, item.count);
            }
        }
        print!("{lines}");
        assert!(self.tried > 0, "{}: nothing tried", self.title);
        assert!(missing.is_empty(), "{}: too few of{missing}", self.title);
    }

    fn item(&mut self, sort: &'static str, item: impl Display) -> &mut Item {
        let sort = match self.sorts.iter().position(|known| known.name == sort) {
            Some(at) => &mut self.sorts[at],
            None => {
                let items = Vec::new();
                self.sorts.push(Sort { name: sort, items });
                self.sorts.last_mut().expect("just pushed")
            }
        };
        let name = item.to_string();
        let at = sort.items.iter().position(|known| known.name == name);
        let at = at.unwrap_or_else(|| {
            let (count, due) = (0, false);
            sort.items.push(Item { name, count, due });
            sort.items.len() - 1
        });
        &mut sort.items[at]
    }
}
